//! `undo` and `redo` in the interactive mode.

use super::interactive::{PRESS, typed};
use super::program::scratch;
use std::fs;

/// The last lines of what is printed.
fn last(out: &str, count: usize) -> Vec<&str> {
    let lines: Vec<&str> = out.lines().collect();
    lines[lines.len() - count..].to_vec()
}

const EDITS: &str = "pause machine=0 now=1\nresume machine=0 now=3\n";

#[test]
fn several_commands_are_taken_back_and_done_again() {
    let out = typed(&[], &format!("{PRESS}{EDITS}undo 2\n"));
    let expected = [
        "took back: resume machine=0 now=3 priority=0",
        "took back: pause machine=0 now=1",
        "  in force: 3; scheduled: press 1 by ram seal at tick 40; thresholds drawn: 1 of 2",
    ];
    assert_eq!(last(&out, 3), expected);
    let out = typed(
        &[],
        &format!("{PRESS}{EDITS}undo 2\nredo\nredo 1\nundo\nundo\nredo 2\n"),
    );
    let expected = [
        "done again: pause machine=0 now=1; the breakdown scheduled before is withdrawn",
        "done again: resume machine=0 now=3 priority=0; scheduled: a breakdown of press 1 by ram seal, in 3, at tick 60",
        "  in force: 5; scheduled: press 1 by ram seal at tick 60; thresholds drawn: 1 of 2",
    ];
    assert_eq!(last(&out, 3), expected);
}

#[test]
fn too_many_and_none() {
    let out = typed(
        &[],
        &format!("{PRESS}undo 4\nredo\nundo 0\nundo x\nundo 2\nredo 3\nundo 1 2\nredo 1 2\n"),
    );
    for expected in [
        "only 3 commands in force; nothing has changed\n",
        "nothing to do again; nothing has changed\n",
        "expected a whole number from 1 to 1000000, not `0`\n",
        "expected a whole number from 1 to 1000000, not `x`\n",
        "only 2 commands taken back; nothing has changed\n",
        "typed:13:6: expected an operand name=value, not `1`\n",
        "nothing more may follow `redo`\n",
    ] {
        assert!(out.contains(expected), "{expected}\n{out}");
    }
}

#[test]
fn only_one() {
    let out = typed(&[], &format!("{PRESS}undo 2\nundo 2\n"));
    let told = "only 1 command in force; nothing has changed\n";
    assert!(out.ends_with(told), "{out}");
    let out = typed(&[], &format!("{PRESS}undo\nredo 2\n"));
    let told = "only 1 command taken back; nothing has changed\n";
    assert!(out.ends_with(told), "{out}");
}

#[test]
fn another_command_ends_redo() {
    let out = typed(&[], &format!("{PRESS}undo\npause machine=0 now=1\nredo\n"));
    assert!(
        out.ends_with("nothing to do again; nothing has changed\n"),
        "{out}"
    );
    // a refused one changes nothing, and neither do names and comments
    let out = typed(
        &[],
        &format!("{PRESS}undo\npause machine=9 now=1\ncause 9 \"x\"\n# y\nredo\n"),
    );
    assert!(
        out.contains("done again: reschedule machine=0 now=0"),
        "{out}"
    );
}

#[test]
fn a_file_s_undos_can_be_done_again() {
    let file = scratch("undone.session");
    fs::write(&file, format!("{PRESS}{EDITS}undo\n")).unwrap();
    let out = typed(&[file.to_str().unwrap()], "redo\n");
    fs::remove_file(&file).unwrap();
    assert!(out.contains("done again: resume machine=0 now=3"), "{out}");
}
