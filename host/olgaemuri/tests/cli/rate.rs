//! `olgaemuri rate`: the rate on standard output, words where there is none, and the status.

use super::json::{Value, parse};
use super::program::{by_shell, olgaemuri, root};
use std::fs;

/// The command line's words behind `rate`, what is printed, what is told and the status.
fn rate(words: &str) -> (String, String, i32) {
    let words: Vec<&str> = ["rate"].into_iter().chain(words.split(' ')).collect();
    let ran = olgaemuri(&words, b"");
    (ran.text().to_string(), ran.err, ran.status)
}

#[test]
fn the_rate_is_the_one_line_of_standard_output() {
    for (words, expected) in [
        ("2 4", "0.5"),
        ("1 5", "0.19999999999999998"),
        ("1e-323 2", "5e-324"),
        ("1 9.094947017729282e-13", "1099511627776"),
        ("0.1 1e-3", "100"),
        ("0x4000000000000000 0x4010000000000000", "0.5"),
        ("-- 2 4", "0.5"),
    ] {
        let printed = (format!("{expected}\n"), String::new(), 0);
        assert_eq!(rate(words), printed, "{words}");
    }
}

/// A session of one cause with this rate and this threshold: how long it waits.
fn waited(threshold: &str, rate: &str) -> String {
    let session = format!(
        "thresholds {threshold}\ncreate machine=0 policy=retain\n\
         set machine=0 cause=1 now=0 hazard=constant rate={rate}\nreschedule machine=0 now=0\n"
    );
    let ran = olgaemuri(&["run", "-", "--csv=events"], session.as_bytes());
    let row: Vec<&str> = ran.text().lines().nth(1).unwrap().split(',').collect();
    row[7].to_string()
}

#[test]
fn a_session_with_that_rate_breaks_down_then() {
    for words in ["2 4", "1 5", "0.7 12.25", "0.1 1e-3"] {
        let (threshold, wait) = words.split_once(' ').unwrap();
        let (rate, ..) = rate(words);
        let waited: f64 = waited(threshold, rate.trim_end()).parse().unwrap();
        assert_eq!(waited, wait.parse().unwrap(), "{words}");
    }
}

#[test]
fn where_there_is_none_the_nearest_are_told() {
    for (words, told) in [
        (
            "1 49",
            "no rate up to 2^40 gives exactly the wait 49 for the threshold 1 (refusal 24)\n\
             the largest that waits longer: 0.02040816326530612 waits 49.00000000000001\n\
             the smallest that waits shorter: 0.020408163265306124 waits 48.99999999999999\n",
        ),
        (
            "5e-324 2",
            "no rate up to 2^40 gives exactly the wait 2 for the threshold 5e-324 (refusal 24)\n\
             no rate waits longer\n\
             the smallest that waits shorter: 5e-324 waits 1\n",
        ),
        (
            "1024 1e-12",
            "no rate up to 2^40 gives exactly the wait 1e-12 for the threshold 1024 (refusal 24)\n\
             the largest that waits longer: 1099511627776 waits 9.313225746154785e-10\n\
             no rate up to 2^40 waits shorter\n",
        ),
    ] {
        assert_eq!(rate(words), (String::new(), told.to_string(), 1));
    }
    let ran = by_shell("exec \"$@\" 2>&-", &["rate", "1", "49"], b"");
    assert_eq!(ran.status, 1);
}

#[test]
fn outside_the_limits() {
    const THRESHOLD: &str = "THRESHOLD must be above 0 and at most 1024, not ";
    const WAIT: &str = "WAIT must be from 2^-40 to 2^40, not ";
    for (words, told) in [
        ("0 4", format!("{THRESHOLD}0")),
        ("-0 4", format!("{THRESHOLD}-0")),
        ("-1 4", format!("{THRESHOLD}-1")),
        ("-.5 4", format!("{THRESHOLD}-.5")),
        ("1e-400 4", format!("{THRESHOLD}1e-400")),
        (
            "1024.0000000000002 4",
            format!("{THRESHOLD}1024.0000000000002"),
        ),
        ("inf 4", format!("{THRESHOLD}inf")),
        ("-inf 4", format!("{THRESHOLD}-inf")),
        (
            "0x7ff8000000000000 4",
            format!("{THRESHOLD}0x7ff8000000000000"),
        ),
        (
            "2 9.094947017729281e-13",
            format!("{WAIT}9.094947017729281e-13"),
        ),
        ("2 1099511627776.0002", format!("{WAIT}1099511627776.0002")),
        ("2 -4", format!("{WAIT}-4")),
        ("-2 -4", format!("{THRESHOLD}-2; {WAIT}-4")),
    ] {
        let told = format!("refused by 23: {told}\n");
        assert_eq!(rate(words), (String::new(), told, 2), "{words}");
    }
}

#[test]
fn wrong_words_are_told() {
    const NUMBER: &str = "expected a number such as 4, -0.25 or 1e-6";
    for (words, told) in [
        ("x 4", format!("THRESHOLD: {NUMBER}")),
        ("2 nan", format!("WAIT: {NUMBER}")),
        ("2 -4x", format!("WAIT: {NUMBER}")),
        (
            "2 1e999",
            "WAIT: `1e999` is too large for a float".to_string(),
        ),
        ("2", "`rate` takes THRESHOLD and WAIT".to_string()),
        ("2 4 8", "`rate` takes THRESHOLD and WAIT".to_string()),
        (
            "2 4 --jsn",
            "unknown option `--jsn`; did you mean `--json`?".to_string(),
        ),
        ("2 4 --csv", "unknown option `--csv`".to_string()),
    ] {
        let (out, err, status) = rate(words);
        assert_eq!((out.as_str(), status), ("", 2), "{words}");
        assert!(err.starts_with(&told), "{words}: {err}");
        assert!(
            err.contains("\nusage: olgaemuri rate THRESHOLD WAIT"),
            "{err}"
        );
    }
}

/// An object of a rate and its wait.
fn with_wait(value: &Value) -> (f64, f64) {
    (value.get("rate").number(), value.get("wait").number())
}

#[test]
fn as_json() {
    let (out, err, status) = rate("1 5 --json");
    assert_eq!((err.as_str(), status, out.lines().count()), ("", 0, 1));
    let value = parse(&out).unwrap();
    let numbers = ["number", "threshold", "wait", "rate"].map(|name| value.get(name).number());
    assert_eq!(numbers, [0.0, 1.0, 5.0, 0.19999999999999998]);
    assert_eq!(
        (value.get("longer"), value.get("shorter")),
        (&Value::Null, &Value::Null)
    );

    let (out, err, status) = rate("--json 1 49");
    assert_eq!((err.as_str(), status, out.lines().count()), ("", 1, 1));
    let value = parse(&out).unwrap();
    assert_eq!(
        (value.get("number").number(), value.get("rate")),
        (24.0, &Value::Null)
    );
    let nearest = ["longer", "shorter"].map(|side| with_wait(value.get(side)));
    let expected = [
        (0.02040816326530612, 49.00000000000001),
        (0.020408163265306124, 48.99999999999999),
    ];
    assert_eq!(nearest, expected);

    let (out, err, status) = rate("-1 4 --json");
    assert_eq!((status, out.lines().count()), (2, 1));
    assert!(err.starts_with("refused by 23: THRESHOLD"), "{err}");
    let value = parse(&out).unwrap();
    assert_eq!(value.get("number").number(), 23.0);
    for name in ["rate", "longer", "shorter"] {
        assert_eq!(value.get(name), &Value::Null);
    }

    let value = parse(&rate("inf 0x7ff8000000000000 --json").0).unwrap();
    assert_eq!(value.get("number").number(), 23.0);
    assert_eq!(value.get("threshold"), &Value::Null);
    assert_eq!(value.get("wait"), &Value::Null);

    let value = parse(&rate("1024 1e-12 --json").0).unwrap();
    assert_eq!(value.get("shorter"), &Value::Null);
    assert_eq!(
        value.get("longer").get("rate").number(),
        1_099_511_627_776.0
    );
}

/// The README's line, and what it says that it prints.
#[test]
fn the_readme_says_what_it_prints() {
    let readme = fs::read_to_string(root().join("README.md")).unwrap();
    let (_, said) = readme.split_once("\n    olgaemuri rate 2 4\n\n").unwrap();
    let (printed, ..) = rate("2 4");
    assert!(
        said.starts_with(&format!("prints {},", printed.trim_end())),
        "{said:.80}"
    );
}
