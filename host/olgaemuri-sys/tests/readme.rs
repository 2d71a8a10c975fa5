//! The C programs that the README shows: they compile as they stand and print what the README says.

mod compiled;

use compiled::{below, output};
use std::fs;
use std::path::Path;

#[test]
fn the_c_programs_print_what_is_said() {
    let readme = fs::read_to_string(below("../../README.md")).expect("the README");
    let blocks: Vec<&str> = readme.split("```c\n").skip(1).collect();
    assert_eq!(blocks.len(), 2);
    for (number, block) in blocks.into_iter().enumerate() {
        let (program, rest) = block.split_once("```").expect("the program's end");
        let source = Path::new(env!("CARGO_TARGET_TMPDIR")).join(format!("readme-{number}.c"));
        fs::write(&source, program).expect("the source can be written");
        let printed = output("gcc", &["-std=c99"], &source, &format!("readme-{number}"));
        // the command that compiles it, then its output, all indented
        let said: String = rest
            .trim_start()
            .lines()
            .skip(1)
            .map_while(|line| line.strip_prefix("    "))
            .map(|line| format!("{line}\n"))
            .collect();
        assert_eq!(printed, said);
    }
}
