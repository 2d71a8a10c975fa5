//! The names that the library brings into a program: those of its nine functions and no other, so that a program may have a `run` of its
//! own.

mod compiled;

use compiled::{below, library, output};
use std::collections::BTreeSet;
use std::process::Command;

/// What `nm` lists of the library with this option.
fn names(option: &str) -> BTreeSet<String> {
    let listed = Command::new("nm")
        .args(["--format=posix", "--extern-only", option])
        .arg(library())
        .output()
        .expect("nm can be started");
    assert!(listed.status.success());
    let text = String::from_utf8(listed.stdout).expect("text");
    // a line for the archive's member ends in a colon, any other begins with a name
    text.lines()
        .filter(|line| !line.ends_with(':'))
        .filter_map(|line| line.split_whitespace().next())
        .map(String::from)
        .collect()
}

#[test]
fn the_library_has_nine_names() {
    let names = names("--defined-only");
    let expected = [
        "applied",
        "cause",
        "clock",
        "counts",
        "execute",
        "open",
        "rate_for_wait",
        "request",
        "run",
    ];
    let expected = expected.map(|name| format!("olgaemuri_{name}"));
    assert!(names.iter().eq(&expected), "{names:?}");
}

#[test]
fn it_asks_for_memcpy_and_memset_alone() {
    let allowed = BTreeSet::from(["memcpy".into(), "memset".into()]);
    let asked = names("--undefined-only");
    assert!(asked.is_subset(&allowed), "{asked:?}");
}

#[test]
fn a_program_with_a_run_of_its_own_calls_the_engine() {
    let printed = output("gcc", &["-std=c99"], &below("tests/c/names.c"), "names");
    let expected = "the engine: returned 0, answered 11 and 12; returned 0, rate 0.5; opened 0, answered 11; calls of the program's \
                    own: 0\nthe program's own: 21\n";
    assert_eq!(printed, expected);
}
