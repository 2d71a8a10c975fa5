//! Bad lines: each gets its column and what was expected.

use super::number::FLOAT_FORMS;
use super::{Fault, SessionText, Source};

/// The bad lines of a session in the present folder.
fn faults(text: &[u8]) -> Vec<Fault> {
    let source = Source::named("shop").in_folder("");
    let error = SessionText::parse(text, &source).unwrap_err();
    error.faults().to_vec()
}

/// The reports of a session, as FILE:LINE:COLUMN: MESSAGE.
fn reports(text: &str) -> Vec<String> {
    let shown = faults(text.as_bytes())
        .into_iter()
        .map(|fault| fault.to_string());
    shown
        .map(|text| text.lines().next().unwrap().to_string())
        .collect()
}

#[test]
fn every_kind_of_bad_line() {
    let text = include_str!("bad_lines.txt");
    let lines: Vec<&str> = text
        .lines()
        .filter(|line| !line.is_empty() && !line.starts_with("# "))
        .collect();
    assert_eq!(lines.len() % 2, 0);
    for pair in lines.chunks(2) {
        let expected = pair[1].trim_start().replace("FLOAT", FLOAT_FORMS);
        assert_eq!(reports(pair[0]), [format!("shop:1:{expected}")]);
    }
    assert_eq!(lines.len() / 2, 66);
}

#[test]
fn a_file_of_thresholds_that_is_not_there() {
    let reports = reports("thresholds from \"no such file\"");
    assert!(reports[0].starts_with("shop:1:17: cannot read the thresholds of no such file: "));
}

#[test]
fn a_text_of_no_folder_names_no_files() {
    let error = "thresholds from \"x\"".parse::<SessionText>().unwrap_err();
    let expected = "text:1:17: expected the thresholds themselves: this text stands in no folder\n";
    assert!(error.to_string().starts_with(expected), "{error}");
}

#[test]
fn what_stands_against_an_earlier_line() {
    let text = "machine 1 \"a\"\nmachine 1 \"b\"\nmachine 2 \"a\"\n\
        journal 5\njournal 6\npause machine=\"aa\" now=0";
    assert_eq!(
        reports(text),
        [
            "shop:2:9: machine 1 is named \"a\" already",
            "shop:3:9: \"a\" is the name of machine 1 already",
            "shop:5:1: the journal's length is given already",
            "shop:6:15: no machine is named `aa` above; did you mean `a`?",
        ]
    );
}

#[test]
fn the_line_is_shown_with_a_caret() {
    let faults = faults(b"undo\n\tpause machine=0");
    let expected = "shop:2:17: `pause` needs an operand `now=`\n     \
        pause machine=0\n                    ^";
    assert_eq!(faults[0].to_string(), expected);
}

/// The column counts letters, of which some take two columns of a terminal.
#[test]
fn the_caret_stands_below_wide_letters() {
    let fault = faults("machine 0 \"プレス\" 3".as_bytes())[0].to_string();
    let expected =
        "shop:1:17: unexpected `3`\n    machine 0 \"プレス\" 3\n                       ^";
    assert_eq!(fault, expected);
}

#[test]
fn bytes_that_are_no_text() {
    let report = faults(b"undo\nma\xff\n")[0].to_string();
    assert!(report.starts_with("shop:2:3: expected text in UTF-8"));
}
