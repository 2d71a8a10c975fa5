//! Options of `run` and `compare`: what is printed, and which status it ends with.

use super::program::{example, olgaemuri};

const SESSION: &str = "examples/press-shop.session";
const KEPT: &str = "examples/press-shop-kept.session";

fn run(words: &[&str]) -> String {
    let ran = olgaemuri(&[&["run", SESSION], words].concat(), b"");
    assert_eq!((ran.status, ran.err.as_str()), (0, ""), "{words:?}");
    ran.text().to_string()
}

/// The operands of `reschedule` for six machines: the first five have events at tick 4, that of the last is earlier.
const RESCHEDULES: [&str; 6] = [
    "priority=1",
    "priority=2147483647",
    "priority=-1",
    "priority=-2147483648",
    "",
    "censor=2 priority=-9",
];

fn one_tick() -> String {
    let machine = |(machine, operands): (usize, &str)| {
        format!(
            "create machine={machine} policy=restart\n\
             set machine={machine} cause=1 now=0 hazard=constant rate=0.5\n\
             reschedule machine={machine} now=0 {operands}\n"
        )
    };
    let lines: String = RESCHEDULES.into_iter().enumerate().map(machine).collect();
    "thresholds 2 2 2 2 2 2\n".to_string() + &lines
}

/// Delivered and still scheduled, from the highest priority to the lowest.
#[test]
fn urgent_events_stand_first() {
    let priorities = ["-9", "2147483647", "1", "0", "-1", "-2147483648"];
    for delivered in 0..=6 {
        let session = one_tick() + &"deliver\n".repeat(delivered);
        let ran = olgaemuri(&["run", "-", "--csv=breakdowns"], session.as_bytes());
        let rows = ran.text().lines().skip(1).map(|row| row.split(','));
        let rows: Vec<Vec<&str>> = rows.map(Iterator::collect).collect();
        let column = |at: usize| rows.iter().map(|row| row[at]).collect::<Vec<&str>>();
        assert_eq!(column(1), ["5", "1", "0", "4", "2", "3"]);
        assert_eq!(column(10), priorities);
        let came = column(9)
            .iter()
            .filter(|state| **state == "delivered")
            .count();
        assert_eq!((came, rows.len()), (delivered, 6));
    }
}

#[test]
fn priorities_are_shown() {
    let session = one_tick();
    let run = |words: &[&str]| {
        let ran = olgaemuri(&[&["run", "-"], words].concat(), session.as_bytes());
        ran.text().to_string()
    };
    let tables = run(&[]);
    let shown = [
        "  reschedule  priority 1 ",
        "  reschedule  censor 2, priority -9 ",
        "\nno  machine    cause     at  tick  state         priority\n",
        "\n 2  machine 1  cause 1    4     4  scheduled   2147483647\n",
        "\n 4  machine 4  cause 1    4     4  scheduled            0\n",
    ];
    for line in shown {
        assert!(tables.contains(line), "{line}\n{tables}");
    }
    let title = "data-priority=\"1\" data-piece=\"0\"><title>machine 0: cause 1 at 4, tick 4, priority 1; scheduled,";
    assert!(run(&["--svg", "-"]).contains(title));
    assert!(
        run(&["--json"])
            .contains("\"state\": \"scheduled\", \"priority\": -2147483648, \"piece\": 0}")
    );
}

#[test]
fn csv_of_breakdowns_and_events() {
    let head = "no,machine,machine_name,cause,cause_name,censored,scheduled_at,time,ticks,state,priority,piece\n";
    let breakdowns = run(&["--csv=breakdowns"]);
    assert!(breakdowns.starts_with(head), "{breakdowns}");
    assert_eq!(breakdowns.lines().count(), 1 + 12);
    assert!(
        breakdowns.contains("\n3,1,punch 1,1,tool break,0,") || breakdowns.contains(",punch 1,"),
        "{breakdowns}"
    );
    let events = run(&["--csv=events"]);
    assert!(events.starts_with(head), "{events}");
    assert_eq!(events.lines().count(), 1 + 14);
    assert_eq!(events.matches(",withdrawn,0,").count(), 2);
    // the shear's blade, which was to break in piece 2, and an end of observation
    assert_eq!(events.matches(",withdrawn,0,2\n").count(), 1);
    assert_eq!(events.matches(",scheduled,0,\n").count(), 2);
    assert_eq!(run(&["--csv=answers"]), run(&["--csv"]));
    assert_eq!(run(&["--csv"]).into_bytes(), example("press-shop.csv"));
    let ran = olgaemuri(&["run", SESSION, "--csv=evens"], b"");
    assert_eq!(ran.status, 2);
    assert!(
        ran.err.starts_with(
            "expected answers, events or breakdowns, not `evens`; did you mean `events`?\n"
        ),
        "{}",
        ran.err
    );
}

#[test]
fn strict_has_a_status_for_refused_commands() {
    // the example has one refused command
    let strict = olgaemuri(&["run", SESSION, "--strict"], b"");
    assert_eq!((strict.status, strict.err.as_str()), (1, ""));
    assert_eq!(strict.text(), run(&[]));
    let session = b"create machine=0 policy=retain\nundo\n";
    assert_eq!(olgaemuri(&["run", "-", "--strict"], session).status, 0);
}

#[test]
fn quiet_prints_nothing() {
    assert_eq!(run(&["--quiet"]), "");
    let ran = olgaemuri(&["run", SESSION, "--quiet", "--strict"], b"");
    assert_eq!((ran.status, ran.text(), ran.err.as_str()), (1, "", ""));
    let ran = olgaemuri(&["compare", SESSION, KEPT, "--quiet"], b"");
    assert_eq!((ran.status, ran.text(), ran.err.as_str()), (1, "", ""));
    let ran = olgaemuri(&["run", "-", "--quiet"], b"undoo\n");
    assert_eq!((ran.status, ran.text()), (2, ""));
    assert!(ran.err.starts_with("standard input:1:1:"));
    assert_eq!(
        olgaemuri(&["run", SESSION, "--quiet", "--csv"], b"").status,
        2
    );
}
