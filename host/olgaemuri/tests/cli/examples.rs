//! The worked examples' output is what is stored beside them.

use super::json::{self, Value};
use super::program::{example, olgaemuri, scratch};
use std::fs;

/// The examples with all their output, and the titles of their pictures.
const EXAMPLES: [(&str, &str); 3] = [
    ("press-shop", "A press shop over two weeks, in hours"),
    (
        "guide-rails",
        "A press with guide rails that wear, in hours",
    ),
    ("punch-life", "The life of a punch, in hours"),
];

/// The output of `run` for each example, held to the stored file with this ending.
fn check_runs(options: &[&str], ending: &str) {
    for (name, _) in EXAMPLES {
        let session = format!("examples/{name}.session");
        let words = [&["run", &session], options].concat();
        check(&words, &format!("{name}.{ending}"));
    }
}

/// The program's output, held to a stored file.
fn check(words: &[&str], stored: &str) {
    let ran = olgaemuri(words, b"");
    assert_eq!((ran.status, ran.err.as_str()), (0, ""));
    let expected = example(stored);
    assert!(
        ran.out == expected,
        "`olgaemuri {}` prints\n{}\nand examples/{stored} has\n{}",
        words.join(" "),
        ran.text(),
        String::from_utf8_lossy(&expected)
    );
}

#[test]
fn table() {
    check_runs(&[], "out");
}

#[test]
fn csv() {
    check_runs(&["--csv"], "csv");
}

#[test]
fn json() {
    check_runs(&["--json"], "json");
}

#[test]
fn picture() {
    for (name, title) in EXAMPLES {
        let file = scratch(&format!("{name}.svg"));
        let session = format!("examples/{name}.session");
        let path = file.to_str().unwrap();
        let ran = olgaemuri(&["run", &session, "--title", title, "--svg", path], b"");
        assert_eq!(ran.status, 0);
        let drawn = fs::read(&file).unwrap();
        fs::remove_file(&file).unwrap();
        assert!(
            drawn == example(&format!("{name}.svg")),
            "the picture is another than examples/{name}.svg"
        );
    }
}

/// What the comments of the guide rails say: 400 h times the root of 0.81, softer ones 250 h times that of 0.64; then the hose, which has
/// used up 0.9 of 1.5; then 400 h times the root of 1.44.
#[test]
fn guide_rails() {
    let stored = String::from_utf8(example("guide-rails.json")).unwrap();
    let report = json::parse(&stored).unwrap();
    let told = |line: &Value| ["cause", "time"].map(|name| line.get(name).number());
    let breakdowns: Vec<[f64; 2]> = report.get("breakdowns").array().iter().map(told).collect();
    assert_eq!(breakdowns, [[1.0, 360.0], [2.0, 606.0], [1.0, 1090.0]]);
    assert_eq!(report.get("draws").number(), 5.0);
    let undone = |answer: &&Value| *answer.get("undone_by") != Value::Null;
    let undone: Vec<&Value> = report
        .get("answers")
        .array()
        .iter()
        .filter(undone)
        .collect();
    let [softer, resumed] = undone[..] else {
        panic!("{stored}");
    };
    let line = "set machine=0 cause=1 priority=0 now=366 hazard=weibull scale=250";
    assert_eq!(softer.get("text").text(), line);
    let event = ["cause", "delta"].map(|name| resumed.get(name).number());
    assert_eq!(event, [1.0, 200.0]);
}

/// What the comments of the punch say: in which pieces its tools break, and when; what the softer one would have done.
#[test]
fn punch_life() {
    let stored = String::from_utf8(example("punch-life.json")).unwrap();
    let report = json::parse(&stored).unwrap();
    let told = |line: &Value| {
        let piece = line.get("piece");
        let piece = (*piece != Value::Null).then(|| piece.number());
        (
            line.get("machine").number(),
            piece,
            line.get("time").number().round(),
        )
    };
    let breakdowns: Vec<_> = report.get("breakdowns").array().iter().map(told).collect();
    let expected = [
        (0.0, Some(0.0), 15.0),
        (1.0, Some(0.0), 60.0),
        (0.0, Some(2.0), 161.0),
        (1.0, None, 300.0),
        (0.0, Some(3.0), 378.0),
        (0.0, Some(2.0), 603.0),
        (0.0, Some(0.0), 613.0),
    ];
    assert_eq!(breakdowns, expected);
    let answers = report.get("answers").array().iter();
    let undone = answers.filter(|answer| *answer.get("undone_by") != Value::Null);
    let undone: Vec<&Value> = undone.map(|answer| answer.get("piece")).collect();
    assert_eq!(undone, [&Value::Null, &Value::Number(2.0)]);
}

#[test]
fn curves() {
    let curve = [
        "curve",
        "examples/punch-life.session",
        "punch 1",
        "tool break",
    ];
    let title = "Tool break of punch 1: the rate over the age, in hours";
    for (options, ending) in [
        (&[][..], "out"),
        (&["--csv"], "csv"),
        (&["--json"], "json"),
        (&["--svg", "-", "--title", title], "svg"),
    ] {
        check(
            &[&curve, options].concat(),
            &format!("punch-life-curve.{ending}"),
        );
    }
}

#[test]
fn side_by_side() {
    check(
        &[
            "compare",
            "examples/press-shop-before.session",
            "examples/press-shop.session",
        ],
        "press-shop-compare.out",
    );
}

/// The lines of an example that say something.
fn lines(name: &str) -> Vec<String> {
    let text = String::from_utf8(example(name)).unwrap();
    let lines = text.lines().map(str::trim);
    let said = lines.filter(|line| !line.is_empty() && !line.starts_with('#'));
    said.map(str::to_string).collect()
}

#[test]
fn the_three_sessions_differ_in_edits_and_undos_alone() {
    let (after, kept) = (
        lines("press-shop.session"),
        lines("press-shop-kept.session"),
    );
    let without_undos: Vec<String> = after.into_iter().filter(|line| line != "undo").collect();
    assert_eq!(without_undos, kept);
    let is_edit = |line: &String| line.contains("now=60");
    let (edits, rest): (Vec<String>, Vec<String>) = kept.into_iter().partition(is_edit);
    assert_eq!(edits.len(), 3);
    assert_eq!(rest, lines("press-shop-before.session"));
}

#[test]
fn the_answers_are_well_formed_json() {
    let stored = String::from_utf8(example("press-shop.json")).unwrap();
    let report = json::parse(&stored).unwrap();
    let answers = report.get("answers").array();
    assert_eq!(answers.len(), 52);
    let undone: Vec<f64> = answers
        .iter()
        .filter(|answer| *answer.get("undone_by") != Value::Null)
        .map(|answer| answer.get("no").number())
        .collect();
    assert_eq!(undone, [29.0, 30.0, 31.0]);
    let refused = answers
        .iter()
        .filter(|answer| answer.get("number").number() > 0.0);
    assert_eq!(refused.count(), 1);
}

#[test]
fn odd_names_come_back_from_json() {
    let session =
        "machine 0 \"a \\\"b\\\" \\\\ \u{7} \u{1f527}\"\npause machine=0 now=0x7ff8000000000000\n";
    let ran = olgaemuri(&["run", "-", "--json"], session.as_bytes());
    let report = json::parse(ran.text()).unwrap();
    let answer = &report.get("answers").array()[0];
    assert_eq!(
        answer.get("machine_name").text(),
        "a \"b\" \\ \u{7} \u{1f527}"
    );
    // a NaN, which JSON cannot say
    assert_eq!(*answer.get("now"), Value::Null);
    assert_eq!(answer.get("number").number(), 5.0);
}

#[test]
fn the_csv_has_as_many_cells_in_every_line() {
    let stored = String::from_utf8(example("press-shop.csv")).unwrap();
    let cells = |line: &str| {
        let outside = line.split('"').step_by(2);
        outside.map(|part| part.matches(',').count()).sum::<usize>() + 1
    };
    assert!(stored.lines().all(|line| cells(line) == 19), "{stored}");
    assert_eq!(stored.lines().count(), 53);
}
