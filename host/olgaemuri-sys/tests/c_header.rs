//! The C header: C programs are compiled against it, linked with the engine and run; so are the same programs as C++.

mod compiled;

use compiled::{below, output};
use std::process::Command;

/// The programs below tests/c, and what each prints.
const PROGRAMS: [(&str, &str); 5] = [
    ("engine", include_str!("c/engine.stdout")),
    ("session", include_str!("c/session.stdout")),
    ("rate", include_str!("c/rate.stdout")),
    ("wear", include_str!("c/wear.stdout")),
    ("pieces", include_str!("c/pieces.stdout")),
];

/// Compiles and runs each program.
fn all_print_what_is_expected(compiler: &str, options: &[&str], ending: &str) {
    for (name, expected) in PROGRAMS {
        let source = below(&format!("tests/c/{name}.c"));
        let printed = output(compiler, options, &source, &format!("{name}-{ending}"));
        assert_eq!(printed, expected, "{name}");
    }
}

#[test]
fn c_programs_run() {
    all_print_what_is_expected("gcc", &["-std=c99"], "c");
}

#[test]
fn the_same_programs_run_as_cpp() {
    if Command::new("g++").arg("--version").output().is_err() {
        println!("not run: there is no g++");
        return;
    }
    all_print_what_is_expected("g++", &["-std=c++11", "-x", "c++"], "cpp");
}
