//! Standard output and standard error that cannot be written.

use super::program::by_shell;

const SESSION: &str = "examples/press-shop.session";

#[test]
fn standard_error_that_cannot_be_written() {
    for words in [&["run", "no such file"][..], &["rnu"], &["run", "--cvs"]] {
        let ran = by_shell("exec \"$@\" 2>/dev/full", words, b"");
        assert_eq!(ran.status, 2, "{words:?}");
        let ran = by_shell("exec \"$@\" 2>&-", words, b"");
        assert_eq!(ran.status, 2, "{words:?}");
    }
}

/// Work that is done stays done.
#[test]
fn a_warning_that_cannot_be_written() {
    let set = b"create machine=0 policy=retain\nset machine=0 cause=1 now=0 hazard=zero\n";
    let sweep = [
        "sweep",
        "-",
        "--streams",
        "1",
        "--seed",
        "1",
        "--count",
        "0",
    ];
    for (words, input) in [
        (&["interactive"][..], &b"thresholds 1\n"[..]),
        (&sweep, set),
    ] {
        let told = by_shell("exec \"$@\"", words, input);
        assert_eq!((told.status, told.err.lines().count()), (0, 1), "{told:?}");
        let ran = by_shell("exec \"$@\" 2>/dev/full", words, input);
        assert_eq!((ran.status, ran.out), (0, told.out), "{words:?}");
    }
}

#[test]
fn standard_output_that_cannot_be_written() {
    let words: [&[&str]; 13] = [
        &["interactive"],
        &["run", SESSION],
        &["run", SESSION, "--csv"],
        &["run", SESSION, "--json"],
        &["run", SESSION, "--svg", "-"],
        &["compare", SESSION, SESSION],
        &["convert", "--to", "text", SESSION],
        &["sweep", SESSION, "--streams", "1", "--seed", "1"],
        &[
            "sweep",
            SESSION,
            "--streams",
            "1",
            "--seed",
            "1",
            "--rows",
            "-",
        ],
        &["thresholds", "--seed", "1", "--count", "3", "--bytes"],
        &["help"],
        &["rate", "2", "4"],
        &["rate", "1", "49", "--json"],
    ];
    for words in words {
        let ran = by_shell("exec \"$@\" >/dev/full", words, b"");
        assert_eq!(ran.status, 2, "{words:?}");
        assert!(
            ran.err.starts_with("cannot write standard output: "),
            "{}",
            ran.err
        );
    }
}

#[test]
fn a_reader_that_has_gone_away_is_no_failure() {
    let ran = by_shell("\"$@\" | head -n 1", &["run", SESSION], b"");
    assert_eq!((ran.status, ran.err.as_str()), (0, ""));
    assert_eq!(ran.text().lines().count(), 1);
}
