//! What a sweep says of breakdowns.

use crate::json::{self, Value};
use crate::program::{olgaemuri, scratch};
use crate::xml;
use std::fs;

/// One press with two causes of constant rates, 0.5 and 0.3.
const TWO_CAUSES: &str = "machine 0 \"press, \\\"old\\\"\"\ncause 1 \"seal\"\nthresholds 1 1\n\
    create machine=0 policy=retain scale=10\nset machine=0 cause=1 now=0 hazard=constant rate=0.5\n\
    set machine=0 cause=2 now=0 hazard=constant rate=0.3\nreschedule machine=0 now=0\n";

const ONE_CAUSE: &str = "create machine=3 policy=retain\nset machine=3 cause=7 now=0 hazard=constant rate=0.25\n\
    reschedule machine=3 now=0\n";

/// A sweep of a session; what stands on standard error is returned too.
fn swept(session: &str, words: &str) -> (String, String) {
    let words: Vec<&str> = format!("sweep - {words}").leak().split(' ').collect();
    let ran = olgaemuri(&words, session.as_bytes());
    assert_eq!(ran.status, 0, "{words:?}: {}", ran.err);
    (ran.text().to_string(), ran.err)
}

fn summary(session: &str, words: &str) -> Value {
    let (text, told) = swept(session, &format!("{words} --json"));
    assert_eq!(told, "");
    json::parse(&text).unwrap()
}

/// The numbers of a line with these names.
fn of(line: &Value, names: [&str; 3]) -> [f64; 3] {
    names.map(|name| line.get(name).number())
}

/// Mean, median and 95 % of the one cause of ONE_CAUSE, which has failed in each of 20,000 runs.
fn of_one_cause(summary: &Value) -> [f64; 3] {
    let [line] = summary.get("summary").array() else {
        panic!("one machine, one cause");
    };
    assert_eq!(
        of(line, ["machine", "cause", "count"]),
        [3.0, 7.0, 20_000.0]
    );
    of(line, ["mean", "p50", "p95"])
}

/// A constant rate gives an exponential time with mean 1 / rate; its deviation over 20,000 runs is 0.7 % of it.
#[test]
fn a_constant_cause() {
    let summary = summary(ONE_CAUSE, "--streams 20000 --seed 1");
    assert_eq!(summary.get("runs").number(), 20_000.0);
    let [mean, p50, p95] = of_one_cause(&summary);
    assert!((mean / 4.0 - 1.0).abs() < 0.02, "{mean}");
    assert!((p50 / (4.0 * 2f64.ln()) - 1.0).abs() < 0.03, "{p50}");
    assert!((p95 / (4.0 * 20f64.ln()) - 1.0).abs() < 0.03, "{p95}");
}

/// Weibull with shape 2: the time is the scale times the root of an exponential one. Its mean is half the root of pi, its deviation over
/// 20,000 runs 0.4 % of it.
#[test]
fn a_cause_that_wears() {
    let session = ONE_CAUSE.replace("hazard=constant rate=0.25", "hazard=weibull scale=400");
    let summary = summary(&session, "--streams 20000 --seed 1");
    let [mean, p50, p95] = of_one_cause(&summary);
    let pi = std::f64::consts::PI;
    assert!((mean / (200.0 * pi.sqrt()) - 1.0).abs() < 0.015, "{mean}");
    assert!(
        (p50 / (400.0 * 2f64.ln().sqrt()) - 1.0).abs() < 0.02,
        "{p50}"
    );
    assert!(
        (p95 / (400.0 * 20f64.ln().sqrt()) - 1.0).abs() < 0.02,
        "{p95}"
    );
}

/// The first of two exponential times has mean 1 / (sum of the rates), whichever it is; each comes in proportion to its rate.
#[test]
fn competing_causes() {
    let summary = summary(TWO_CAUSES, "--streams 20000 --seed 2");
    let lines = summary.get("summary").array();
    assert_eq!(lines.len(), 2);
    for (line, share) in lines.iter().zip([0.5 / 0.8, 0.3 / 0.8]) {
        let [count, runs, mean] = of(line, ["count", "runs", "mean"]);
        assert_eq!(count, runs);
        assert!((count / 20_000.0 - share).abs() < 0.012, "{count}");
        assert!((mean * 0.8 - 1.0).abs() < 0.04, "{mean}");
    }
    assert_eq!(lines[0].get("machine_name").text(), "press, \"old\"");
    assert_eq!(lines[1].get("cause_name").text(), "cause 2");
}

/// The summary's numbers are those of the rows, and CSV, JSON and table say the same.
#[test]
fn rows_and_summaries_agree() {
    let (rows, _) = swept(ONE_CAUSE, "--streams 501 --seed 3 --rows -");
    let mut times: Vec<f64> = rows
        .lines()
        .skip(1)
        .map(|row| row.split(',').nth(7).unwrap().parse().unwrap())
        .collect();
    assert_eq!(times.len(), 501);
    let mean = times.iter().sum::<f64>() / 501.0;
    times.sort_by(f64::total_cmp);
    let (csv, _) = swept(ONE_CAUSE, "--streams 501 --seed 3 --csv");
    let (head, line) = csv.trim_end().split_once('\n').unwrap();
    let expected = [
        mean, times[0], times[25], times[125], times[250], times[375], times[475], times[500],
    ];
    assert!(
        head.ends_with(",count,runs,mean,min,p5,p25,p50,p75,p95,max"),
        "{head}"
    );
    let cells: Vec<&str> = line.split(',').collect();
    assert_eq!(
        cells[..7],
        ["3", "machine 3", "7", "cause 7", "0", "501", "501"]
    );
    let found: Vec<f64> = cells[7..]
        .iter()
        .map(|cell| cell.parse().unwrap())
        .collect();
    assert_eq!(found, expected);
    let json = summary(ONE_CAUSE, "--streams 501 --seed 3");
    let line = &json.get("summary").array()[0];
    assert_eq!(
        of(line, ["mean", "p50", "max"]),
        [mean, times[250], times[500]]
    );
    let (table, _) = swept(ONE_CAUSE, "--streams 501 --seed 3");
    assert!(
        table.starts_with("501 runs, streams 0 to 500.\n\nmachine  "),
        "{table}"
    );
    assert!(
        table.contains("\nmachine 3  cause 7    501   501  "),
        "{table}"
    );
}

/// Each run has as many thresholds as there are SETs, so none is refused by 15, whatever is taken back.
#[test]
fn thresholds_never_run_out_by_themselves() {
    let set = "set machine=0 cause=1 now=0 hazard=constant rate=1\n";
    let edits = format!("{set}undo\n{set}{set}undo\n").repeat(5);
    let session = format!("create machine=0 policy=restart\n{edits}reschedule machine=0 now=0\n");
    let summary = summary(&session, "--streams 50 --seed 1");
    assert_eq!(summary.get("refusals").array(), []);
}

#[test]
fn thresholds_that_run_out_are_told_and_counted() {
    let set = "set machine=0 cause=1 now=0 hazard=constant rate=1\n";
    let session = format!("create machine=0 policy=restart\n{}", set.repeat(3));
    let (text, told) = swept(&session, "--streams 40 --seed 1 --count 1 --json");
    let runs = "In 40 of 40 runs the thresholds ran out: commands were refused by 15.\n";
    assert_eq!(told, runs);
    let summary = json::parse(&text).unwrap();
    let [refusal] = summary.get("refusals").array() else {
        panic!("{text}");
    };
    assert_eq!(
        of(refusal, ["number", "commands", "runs"]),
        [15.0, 80.0, 40.0]
    );
    let (table, _) = swept(&session, "--streams 40 --seed 1 --count 1");
    assert!(table.contains("No breakdowns."), "{table}");
    assert!(table.contains("\n  by 15, in 40 runs: 80 ("), "{table}");
    // runs without breakdowns have rows too
    let (rows, told) = swept(&session, "--streams 3 --seed 1 --count 1 --rows -");
    let all: Vec<&str> = rows.lines().skip(1).collect();
    assert_eq!(
        all,
        ["0,,,,,,,,,,15:2,", "1,,,,,,,,,,15:2,", "2,,,,,,,,,,15:2,"]
    );
    assert_eq!(
        told,
        "In 3 of 3 runs the thresholds ran out: commands were refused by 15.\n"
    );
}

#[test]
fn no_runs() {
    let (table, _) = swept(ONE_CAUSE, "--streams 0 --seed 1");
    assert_eq!(table, "No runs.\n\nNo breakdowns.\n");
    let json = summary(ONE_CAUSE, "--streams 0 --seed 1");
    assert_eq!(json.get("summary").array(), []);
    let (one, _) = swept(ONE_CAUSE, "--streams 1 --seed 1");
    assert!(one.starts_with("1 run, stream 0.\n"), "{one}");
}

#[test]
fn the_picture_has_a_lane_for_each_machine_and_cause() {
    let file = scratch("sweep.svg");
    let path = file.to_str().unwrap();
    swept(
        TWO_CAUSES,
        &format!("--streams 100 --seed 1 --svg {path} --title <A>"),
    );
    let drawn = fs::read_to_string(&file).unwrap();
    fs::remove_file(&file).unwrap();
    let picture = xml::parse(&drawn).unwrap_or_else(|wrong| panic!("{wrong}\n{drawn}"));
    assert_eq!(picture.with_class("times").len(), 2);
    assert_eq!(picture.with_class("box").len(), 2);
    assert!(
        drawn.contains("<title>&lt;A&gt;</title>")
            && drawn.contains("press, &quot;old&quot;: seal")
    );
    for session in ["", "thresholds 1\n", "undo\n"] {
        let (drawn, _) = swept(session, "--streams 3 --seed 1 --svg -");
        assert!(xml::parse(&drawn).is_ok(), "{drawn}");
    }
}
