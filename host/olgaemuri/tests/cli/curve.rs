//! `olgaemuri curve`: the pieces of a cause's rate curve, and the breakdowns in each; as table, CSV, JSON and picture.

use super::json::{Value, parse};
use super::program::{Ran, by_shell, example, olgaemuri, on_terminal, root, scratch};
use super::xml::{self, Element};
use std::fs;

const PUNCH: [&str; 4] = [
    "curve",
    "examples/punch-life.session",
    "punch 1",
    "tool break",
];

/// `curve` of a session from standard input.
fn curve(session: &str, words: &[&str]) -> Ran {
    olgaemuri(&[&["curve", "-"], words].concat(), session.as_bytes())
}

/// What is printed where all goes well.
fn shown(session: &str, words: &[&str]) -> String {
    let ran = curve(session, words);
    assert_eq!((ran.status, ran.err.as_str()), (0, ""), "{words:?}");
    ran.text().to_string()
}

fn drawn(session: &str, words: &[&str]) -> Element {
    let picture = shown(session, &[words, &["--svg", "-"]].concat());
    xml::parse(&picture).unwrap_or_else(|wrong| panic!("{wrong}\n{picture}"))
}

/// Document 01's P on machine 0, drawing this threshold.
fn session(threshold: &str) -> String {
    format!(
        "thresholds {threshold} 2.5 1 1\ncreate machine=0 policy=restart\n\
         set machine=0 cause=1 now=0 hazard=piecewise pieces=2:1,5:0 then=0.5\nreschedule machine=0 now=0\n"
    )
}

/// The pieces of the first curve and how many breakdowns each has.
fn counts(session: &str) -> Vec<[String; 3]> {
    let csv = shown(session, &["0", "1", "--csv"]);
    let rows = csv.lines().skip(1).map(|row| row.split(','));
    let rows = rows.map(|cells| cells.map(str::to_string).collect::<Vec<String>>());
    rows.map(|row| [row[1].clone(), row[5].clone(), row[6].clone()])
        .collect()
}

#[test]
fn a_breakdown_counts_for_its_piece() {
    for (threshold, piece) in [("1", 0), ("2", 0), ("2.0000000000000004", 2), ("2.5", 2)] {
        for (more, column) in [("", 2), ("deliver\n", 1)] {
            let counts = counts(&(session(threshold) + more));
            assert_eq!(counts.len(), 3);
            for (row, number) in counts.iter().zip(0..) {
                assert_eq!(row[0], number.to_string());
                let due = if number == piece { "1" } else { "0" };
                assert_eq!((row[column].as_str(), row[3 - column].as_str()), (due, "0"));
            }
        }
    }
}

/// Withdrawn and undone ones are not there, and one that was scheduled by another cause.
#[test]
fn only_what_stands_counts() {
    let none = [["0", "0", "0"], ["1", "0", "0"], ["2", "0", "0"]];
    for more in ["pause machine=0 now=1\n", "undo\n"] {
        assert_eq!(counts(&(session("1") + more)), none, "{more}");
    }
    let other = session("2.5")
        + "set machine=0 cause=2 now=0 hazard=constant rate=9\nreschedule machine=0 now=0\n";
    assert_eq!(counts(&other), none);
    let text = shown(&other, &["0", "1"]);
    let head = "machine 0: cause 1. 0 breakdowns: 0 delivered, 0 scheduled.\n";
    assert!(
        text.starts_with(head) && !text.contains("scheduled at"),
        "{text}"
    );
}

/// The age begins anew at the resume, with what is left of the threshold.
#[test]
fn the_age_counts_from_the_resume() {
    let session = session("2.5") + "pause machine=0 now=1\nresume machine=0 now=3\n";
    let told = parse(&shown(&session, &["0", "1", "--json"])).unwrap();
    let curve = &told.get("curves").array()[0];
    let breakdown = &curve.get("breakdowns").array()[0];
    let numbers = ["piece", "age", "scheduled_at", "time"];
    assert_eq!(
        numbers.map(|name| breakdown.get(name).number()),
        [0.0, 1.5, 3.0, 4.5]
    );
    // one that has nothing left breaks down at once
    let late = session + "pause machine=0 now=20\nresume machine=0 now=20\n";
    let told = parse(&shown(&late, &["0", "1", "--json"])).unwrap();
    let breakdown = &told.get("curves").array()[0].get("breakdowns").array()[0];
    assert_eq!(
        numbers.map(|name| breakdown.get(name).number()),
        [0.0, 0.0, 20.0, 20.0]
    );
}

/// P with nothing left of its threshold at the resume.
fn used_up() -> String {
    session("2.5").replace("restart", "retain") + "pause machine=0 now=7\nresume machine=0 now=7\n"
}

/// One that comes at once, delivered, and then one in piece 2.
fn used_up_and_more() -> String {
    used_up()
        + "deliver\nset machine=0 cause=1 now=8 hazard=piecewise pieces=2:1,5:0 then=0.5\nreschedule machine=0 now=8\n"
}

/// A threshold that is reached already uses no piece: in no form piece 0 counts the breakdown.
#[test]
fn breakdowns_at_once_count_for_no_piece() {
    let none = ["0", "1", "2"].map(|piece| [piece, "0", "0"]);
    for (more, at_once) in [("", ["", "0", "1"]), ("deliver\n", ["", "1", "0"])] {
        let expected = [&none[..], &[at_once]].concat();
        assert_eq!(counts(&(used_up() + more)), expected, "{more}");
    }
    let csv = shown(&used_up_and_more(), &["0", "1", "--csv"]);
    assert!(csv.ends_with("\n1,2,5,,0.5,0,1\n1,,0,0,,1,0\n"), "{csv}");
    let told = parse(&shown(&used_up_and_more(), &["0", "1", "--json"])).unwrap();
    let curve = &told.get("curves").array()[0];
    let states = ["delivered", "scheduled"];
    let at_once = states.map(|state| curve.get("at_once").get(state).number());
    assert_eq!(at_once, [1.0, 0.0]);
    assert_eq!(numbers(curve, "pieces", "delivered"), [0.0, 0.0, 0.0]);
    assert_eq!(numbers(curve, "pieces", "scheduled"), [0.0, 0.0, 1.0]);
    // the engine's own numbers
    assert_eq!(numbers(curve, "breakdowns", "piece"), [0.0, 2.0]);
    assert_eq!(numbers(curve, "breakdowns", "age"), [0.0, 6.0]);
}

#[test]
fn breakdowns_at_once_stand_apart_in_the_table() {
    let text = shown(&used_up_and_more(), &["0", "1"]);
    let note = "\n\nAt once: at age 0, with piece 0 in the engine's answer. Nothing was left of the\n\
                threshold, or the wait rounds to 0; so these breakdowns count for no piece.\n";
    for lines in [
        "\n      0     0   2     1           0\n",
        "\n      2     5  on   0.5           1\nat once     0   0                 1\n\n",
        "\n 1  at once    0             7   7     7  delivered\n",
        note,
    ] {
        assert!(text.contains(lines), "{text}");
    }
    let without = shown(&session("2.5"), &["0", "1"]).to_lowercase();
    assert!(!without.contains("at once"), "{without}");
}

/// The mark stands at age 0 of the axis, not on the curve, and the count beside the pieces.
#[test]
fn breakdowns_at_once_shade_no_piece() {
    let picture = drawn(&used_up_and_more(), &["0", "1"]);
    assert_eq!(texts(&picture, "number"), ["0", "1"]);
    assert_eq!(texts(&picture, "number-struck"), ["2"]);
    assert_eq!(
        texts(&picture, "count"),
        ["no breakdown", "no breakdown", "1 breakdown", "1 breakdown"]
    );
    assert_eq!(texts(&picture, "rate"), ["1", "0", "0.5", "at once"]);
    assert_eq!(texts(&picture, "label"), ["6"]);
    let (marks, axis) = (picture.with_class("at-once"), picture.with_class("axis")[0]);
    assert_eq!((marks.len(), picture.with_class("strike").len()), (1, 1));
    let mark = marks[0].child("g").children.first().unwrap();
    let at = ["cx", "cy"].map(|name| place(mark, name));
    assert_eq!(at, ["x1", "y1"].map(|name| place(axis, name)));
    let words = "breakdown 1: age 0, at once; delivered at 7, tick 7, scheduled at 7";
    assert_eq!(marks[0].child("title").text, words);
    let notes = |picture: &Element| {
        let notes = texts(picture, "sub").into_iter();
        notes.filter(|text| text.starts_with("At once: ")).count()
    };
    assert_eq!(notes(&picture), 1);
    assert_eq!(notes(&drawn(&session("2.5"), &["0", "1"])), 0);
}

/// Ages are rounded: at a late time they may be 0, before the beginning of the piece or past its end.
#[test]
fn ages_at_a_late_time() {
    // the f64 at 10^12 are 2^-13 apart
    for (pieces, threshold, piece, age) in [
        ("2:1", "1e-5", "", 0.0),
        ("1e-5:0,2:1", "1e-5", "1", 0.0),
        ("1e-4:1,2:0", "1e-4", "0", 0.0001220703125),
    ] {
        let session = format!(
            "thresholds {threshold}\ncreate machine=0 policy=restart\n\
             set machine=0 cause=1 now=1e12 hazard=piecewise pieces={pieces} then=0.5\nreschedule machine=0 now=1e12\n"
        );
        let told = parse(&shown(&session, &["0", "1", "--json"])).unwrap();
        let curve = &told.get("curves").array()[0];
        assert_eq!(numbers(curve, "breakdowns", "age"), [age]);
        let counted = counts(&session).into_iter().filter(|row| row[2] == "1");
        let counted: Vec<String> = counted.map(|[piece, ..]| piece).collect();
        assert_eq!(counted, [piece], "{pieces}");
        check_mark(&session, pieces.split(',').count() + 1);
    }
}

/// A cause that is set to P, then to a constant rate, then to P again, each time with a breakdown.
fn several() -> String {
    session("1")
        + "deliver\nset machine=0 cause=1 now=4 hazard=constant rate=0.5\nresume machine=0 now=4\ndeliver\n\
           set machine=0 cause=1 now=9 hazard=piecewise pieces=2:1,5:0 then=0.5\nresume machine=0 now=9\n"
}

/// The numbers of a name in an array.
fn numbers(of: &Value, list: &str, name: &str) -> Vec<f64> {
    let list = of.get(list).array().iter();
    list.map(|line| line.get(name).number()).collect()
}

/// Several hazards are several curves, in the order in which they came, each with its own breakdowns.
#[test]
fn every_hazard_is_a_curve() {
    let told = parse(&shown(&several(), &["0", "1", "--json"])).unwrap();
    let curves = told.get("curves").array();
    let hazards: Vec<&str> = curves
        .iter()
        .map(|curve| curve.get("hazard").text())
        .collect();
    let expected = [
        "hazard=piecewise pieces=2:1,5:0 then=0.5",
        "hazard=constant rate=0.5",
    ];
    assert_eq!(hazards, expected);
    assert_eq!(numbers(&curves[0], "breakdowns", "no"), [1.0, 3.0]);
    assert_eq!(numbers(&curves[1], "breakdowns", "no"), [2.0]);
    assert_eq!(numbers(&curves[1], "breakdowns", "piece"), [0.0]);
    let set_at = curves[0].get("set_at").array().iter();
    assert_eq!(set_at.map(Value::number).collect::<Vec<f64>>(), [0.0, 9.0]);
}

#[test]
fn several_curves_are_shown_below_each_other() {
    let text = shown(&several(), &["0", "1"]);
    for head in [
        "\nhazard=constant rate=0.5, set at 4:\n",
        " then=0.5, set 2 times, from 0 to 9:\n",
    ] {
        assert!(text.contains(head), "{text}");
    }
    let expected = [
        "curve 1 of 2: 1 to 2, 0 to 5, then 0.5; set 2 times, from 0 to 9",
        "curve 2 of 2: rate 0.5; set at 4",
    ];
    assert_eq!(texts(&drawn(&several(), &["0", "1"]), "heading"), expected);
}

/// Hazards without pieces are one, 0, which goes on.
#[test]
fn other_hazards_are_one_piece() {
    for (hazard, rate, shown_rate) in [
        ("zero", "0", "0"),
        ("constant rate=0.25", "0.25", "0.25"),
        ("constant rate=-1", "0", "0"),
        ("gompertz eta=0.25", "0.25", "0.25"),
        ("weibull scale=4", "", "0.125 x age"),
        ("weibull scale=-4", "0", "0"),
        ("piecewise then=0.25", "0.25", "0.25"),
    ] {
        let session = format!(
            "thresholds 1\ncreate machine=0 policy=restart\nset machine=0 cause=1 now=0 hazard={hazard}\n\
             reschedule machine=0 now=0\n"
        );
        let csv = shown(&session, &["0", "1", "--csv"]);
        let strikes = u8::from(shown_rate != "0");
        let row =
            format!("curve,piece,from,to,rate,delivered,scheduled\n1,0,0,,{rate},0,{strikes}\n");
        assert_eq!(csv, row, "{hazard}");
        let text = shown(&session, &["0", "1"]);
        let line = text.lines().find(|line| line.contains("  on  ")).unwrap();
        assert!(line.contains(shown_rate), "{hazard}: {line}");
        let picture = drawn(&session, &["0", "1"]);
        assert_eq!(picture.with_class("curve").len(), 1, "{hazard}");
        assert_eq!(
            picture.with_class("strike").len(),
            usize::from(strikes),
            "{hazard}"
        );
    }
}

/// The texts of a class, in their order.
fn texts(picture: &Element, class: &str) -> Vec<String> {
    let found = picture.with_class(class).into_iter();
    found.map(|text| text.text.clone()).collect()
}

fn place(element: &Element, name: &str) -> f64 {
    element.attributes[name].parse().unwrap()
}

#[test]
fn the_picture_numbers_the_pieces_and_shades_those_that_struck() {
    let stored = String::from_utf8(example("punch-life-curve.svg")).unwrap();
    let picture = xml::parse(&stored).unwrap();
    assert_eq!(texts(&picture, "number-struck"), ["0", "2", "3"]);
    assert_eq!(texts(&picture, "number"), ["1"]);
    assert_eq!(texts(&picture, "rate"), ["0.012", "0.002", "0.004", "0.02"]);
    assert_eq!(
        texts(&picture, "count"),
        [
            "2 breakdowns",
            "no breakdown",
            "2 breakdowns",
            "1 breakdown"
        ]
    );
    // the last one is the legend's
    let struck = picture.with_class("struck");
    assert_eq!((struck.len(), picture.with_class("odd").len()), (4, 1));
    let curves = picture.with_class("curve");
    assert_eq!((curves.len(), picture.with_class("arrow").len()), (4, 1));
    for strike in picture.with_class("strike") {
        let piece: usize = strike.attributes["data-piece"].parse().unwrap();
        let x = place(strike.with_class("drop")[0], "x1");
        let (left, right) = (place(curves[piece], "x1"), place(curves[piece], "x2"));
        assert!((left..=right).contains(&x), "{strike:?}");
    }
    let titles = picture.with_class("strike").into_iter();
    let titles: Vec<&str> = titles
        .map(|strike| strike.child("title").text.as_str())
        .collect();
    let first = "breakdown 1: age 15, piece 0; delivered at 15, tick 900, scheduled at 0";
    let last = "breakdown 5: age 8.3333, piece 0; due at 613.3333, tick 36800, scheduled at 605";
    assert_eq!((titles[0], titles[4], titles.len()), (first, last, 5));
}

/// Ends of very different lengths.
const ENDS: [&str; 8] = [
    "1e-9",
    "2",
    "2.0000000000000004",
    "7",
    "1e6",
    "2e6",
    "5e11",
    "1e12",
];

/// The mark of the one breakdown stands in the piece that the engine names, unless it comes at once; every piece has room.
fn check_mark(session: &str, pieces: usize) {
    let picture = drawn(session, &["0", "1"]);
    let (curves, at_once) = (picture.with_class("curve"), picture.with_class("at-once"));
    let strikes = picture.with_class("strike");
    assert_eq!(curves.len(), pieces, "{session}");
    assert_eq!(strikes.len() + at_once.len(), 1, "{session}");
    let borders = |curve: &&Element| (place(curve, "x1"), place(curve, "x2"));
    for strike in strikes {
        let piece: usize = strike.attributes["data-piece"].parse().unwrap();
        let x = place(strike.with_class("drop")[0], "x1");
        let (left, right) = borders(&curves[piece]);
        assert!((left..=right).contains(&x), "{session}");
    }
    for strike in at_once {
        let [piece, age] = ["data-piece", "data-age"].map(|name| &strike.attributes[name]);
        assert_eq!((piece.as_str(), age.as_str()), ("0", "0"), "{session}");
    }
    let mut widths = curves.iter().map(borders).map(|(left, right)| right - left);
    assert!(widths.all(|width| width >= 99.0), "{session}");
}

#[test]
fn marks_stand_in_their_pieces() {
    for count in 0..=ENDS.len() {
        let pairs = ENDS[..count].iter().zip(1..);
        let pairs: Vec<String> = pairs.map(|(end, n)| format!("{end}:{}", n % 3)).collect();
        let pieces = match pairs.len() {
            0 => String::new(),
            _ => format!("pieces={} ", pairs.join(",")),
        };
        for threshold in ["0", "1e-10", "1.5", "2", "2.5", "9", "1000"] {
            let session = format!(
                "thresholds {threshold}\ncreate machine=0 policy=restart\n\
                 set machine=0 cause=1 now=1 hazard=piecewise {pieces}then=0.5\nreschedule machine=0 now=1\n"
            );
            check_mark(&session, count + 1);
        }
    }
}

#[test]
fn machine_and_cause_by_number_or_name() {
    let by_name = olgaemuri(&PUNCH, b"");
    assert_eq!((by_name.status, by_name.err.as_str()), (0, ""));
    for words in [
        ["0", "1"],
        ["punch 1", "1"],
        ["\"punch 1\"", "\"tool break\""],
    ] {
        let ran = olgaemuri(&[&PUNCH[..2], &words].concat(), b"");
        assert_eq!(ran.out, by_name.out, "{words:?}");
    }
    // a name that looks like a number stands in quotes
    let named = "machine 0 \"3\"\ncause 1 \"7\"\n".to_string() + &session("1");
    assert!(shown(&named, &["\"3\"", "\"7\""]).starts_with("3: 7. 1 breakdown: "));
    assert_eq!(curve(&named, &["3", "1"]).status, 2);
}

/// Words behind `curve examples/punch-life.session`, and what is told.
const MISSING: [([&str; 2], &str); 4] = [
    (
        ["9", "1"],
        "no machine with a cause `9` in the session; there are punch 1, punch 2\n",
    ),
    (
        ["pnuch 1", "1"],
        "no machine with a cause `pnuch 1` in the session; did you mean `punch 1`?\n",
    ),
    (
        ["punch 2", "7"],
        "no cause `7` in punch 2; there are tool break, ram seal\n",
    ),
    (
        ["punch 1", "ram seal"],
        "no cause `ram seal` in punch 1; there is tool break\n",
    ),
];

#[test]
fn what_is_not_there_is_told() {
    for (words, told) in MISSING {
        let ran = olgaemuri(&[&PUNCH[..2], &words].concat(), b"");
        assert_eq!((ran.status, ran.text(), ran.err.as_str()), (2, "", told));
    }
    let ran = olgaemuri(&["curve", "no such file", "0", "1"], b"");
    assert_eq!(ran.status, 2);
    assert!(ran.err.starts_with("cannot read no such file: "));
}

/// Nothing is set in an empty session, nor where it was undone or refused.
#[test]
fn sessions_without_a_cause() {
    let created = "thresholds 1\ncreate machine=0 policy=retain\n";
    let none = "no machine with a cause `0` in the session; no command in force sets a cause\n";
    for more in [
        "",
        "set machine=0 cause=1 now=0 hazard=zero\nundo\n",
        "set machine=0 cause=1 now=-1 hazard=zero\n",
    ] {
        for session in ["", &format!("{created}{more}")] {
            let ran = curve(session, &["0", "1"]);
            assert_eq!((ran.status, ran.text(), ran.err.as_str()), (2, "", none));
        }
    }
    let ran = curve("undoo\n", &["0", "1"]);
    let told = "standard input:1:1: unknown word `undoo`; did you mean `undo`?\n";
    assert!(ran.status == 2 && ran.err.starts_with(told), "{}", ran.err);
}

#[test]
fn wrong_words_are_told() {
    const THREE: &str = "`olgaemuri curve` takes FILE, MACHINE and CAUSE";
    let shop = PUNCH[1];
    let cases: [(&[&str], &str); 7] = [
        (&[], THREE),
        (&[shop], THREE),
        (&[shop, "punch", "1", "tool break"], THREE),
        (
            &[shop, "0", "1", "--csv", "--json"],
            "`--csv` and `--json` do not go together",
        ),
        (
            &[shop, "0", "1", "--title", "x"],
            "`--title` needs `--svg OUT`: it is the picture's",
        ),
        (
            &[shop, "0", "1", "--svg", shop],
            "`--svg` names the session itself",
        ),
        (
            &[shop, "0", "1", "--width", "9"],
            "expected a whole number of columns, 64 or more, not `9`",
        ),
    ];
    for (words, told) in cases {
        let ran = olgaemuri(&[&["curve"], words].concat(), b"");
        assert_eq!((ran.status, ran.text()), (2, ""), "{words:?}");
        assert!(ran.err.starts_with(told), "{}", ran.err);
        assert!(
            ran.err
                .contains("\nusage: olgaemuri curve FILE MACHINE CAUSE"),
            "{}",
            ran.err
        );
    }
}

#[test]
fn the_picture_goes_to_a_file_beside_the_table() {
    let file = scratch("curve.svg");
    let path = file.to_str().unwrap();
    let ran = olgaemuri(&[&PUNCH[..], &["--svg", path]].concat(), b"");
    assert_eq!(ran.out, example("punch-life-curve.out"));
    let picture = fs::read_to_string(&file).unwrap();
    fs::remove_file(&file).unwrap();
    assert!(picture.contains("<title>punch 1: tool break</title>"));
}

#[test]
fn tables_fit_the_width_and_names_are_harmless() {
    let odd = "a\u{1b}[31m\u{7}<&\u{202e}b";
    let name = format!("{odd} {}", "x".repeat(200));
    let named = format!("machine 0 \"{name}\"\ncause 1 \"{odd}\"\n") + &session("1");
    let is_odd = |c: char| (c.is_control() && c != '\n' && c != '\r') || c == '\u{202e}';
    for words in [
        &["0", "1"][..],
        &["0", "1", "--json"],
        &["0", "1", "--svg", "-"],
    ] {
        let text = shown(&named, words);
        assert!(!text.contains(is_odd), "{text:?}");
    }
    drawn(&named, &["0", "1"]);
    let narrow = olgaemuri(&[&PUNCH[..], &["--width", "64"]].concat(), b"");
    let widest = narrow.text().lines().map(|line| line.chars().count()).max();
    assert!(widest <= Some(64), "{}", narrow.text());
    let terminal = on_terminal(&["curve", PUNCH[1], "0", "1"], b"");
    assert!(
        terminal
            .text()
            .contains("piece  from   to   rate  breakdowns"),
        "{terminal:?}"
    );
}

#[test]
fn output_that_goes_nowhere() {
    let ran = by_shell("exec \"$@\" >&-", &PUNCH, b"");
    assert_eq!((ran.status, ran.err.as_str()), (0, ""));
    let ran = by_shell("\"$@\" | head -n 1", &PUNCH, b"");
    assert_eq!((ran.status, ran.err.as_str()), (0, ""));
    let ran = by_shell("exec \"$@\" > /dev/full", &PUNCH, b"");
    assert_eq!(ran.status, 2);
    assert!(
        ran.err.starts_with("cannot write standard output: "),
        "{}",
        ran.err
    );
}

/// The fields of the JSON are those that the format tells of.
#[test]
fn every_field_is_in_the_format() {
    let text = fs::read_to_string(root().join("docs/SESSION-FORMAT.md")).unwrap();
    let (_, fields) = text
        .split_once("## A cause's curve as CSV and JSON")
        .unwrap();
    let (json, csv) = (
        example("punch-life-curve.json"),
        example("punch-life-curve.csv"),
    );
    let (json, csv) = (
        String::from_utf8(json).unwrap(),
        String::from_utf8(csv).unwrap(),
    );
    let parts: Vec<&str> = json.split('"').collect();
    let keys = parts.windows(2).filter(|pair| pair[1].starts_with(": "));
    let heads = csv.lines().next().unwrap().split(',');
    for name in keys.map(|pair| pair[0]).chain(heads) {
        assert!(fields.contains(&format!("`{name}`")), "{name}");
    }
}
