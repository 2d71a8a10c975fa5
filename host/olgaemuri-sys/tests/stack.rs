//! The stack that one run needs, an engine that stays open, and one rate, measured: a proof does not bound it (docs/TRUSTED.md).

mod compiled;

use compiled::{below, output};
use std::io::{Write, stdout};

/// A run, one input, and a thread with a rate stay below this many bytes of stack.
const LIMIT: usize = 64 * 1024;

#[test]
fn a_call_needs_less_than_64_kib_of_stack() {
    let source = below("tests/c/stack.c");
    let printed = output("gcc", &["-std=c11", "-pthread"], &source, "stack");
    let measured = [
        "one run",
        "one input of an open engine",
        "a thread with one rate",
    ];
    assert_eq!(printed.lines().count(), measured.len());
    for (what, bytes) in measured.into_iter().zip(printed.lines()) {
        let bytes: usize = bytes.parse().expect("a number of bytes");
        // past the test harness, which keeps back what a passed test prints
        writeln!(stdout(), "stack of {what}: {bytes} bytes").expect("standard output");
        assert!(0 < bytes && bytes < LIMIT, "{bytes} bytes of stack");
    }
}
