//! Running `olgaemuri`.

use std::io::Write;
use std::path::{Path, PathBuf};
use std::process::{Command, Stdio};

/// What a run of the program left.
#[derive(Debug)]
pub struct Ran {
    pub status: i32,
    pub out: Vec<u8>,
    pub err: String,
}

impl Ran {
    pub fn text(&self) -> &str {
        str::from_utf8(&self.out).unwrap()
    }
}

/// Runs the program in the repository's root with these words and this input.
pub fn olgaemuri(words: &[&str], input: &[u8]) -> Ran {
    let mut program = Command::new(PROGRAM);
    program.args(words);
    ran(&mut program, input)
}

/// The same after a line of the shell, in which `"$@"` is the program with its words.
pub fn by_shell(line: &str, words: &[&str], input: &[u8]) -> Ran {
    let mut shell = Command::new("sh");
    shell.args(["-c", line, "sh", PROGRAM]).args(words);
    ran(&mut shell, input)
}

/// The same with so many mebibytes of memory at most.
pub fn with_memory(most: usize, words: &[&str], input: &[u8]) -> Ran {
    within(&format!("ulimit -v {}", 1024 * most), words, input)
}

/// The same with 300 mebibytes and 30 seconds of the processor at most, whatever else the machine does. That is far more than work on a
/// large input takes, and far less than it takes where every word is compared with every other.
pub fn in_time(words: &[&str], input: &[u8]) -> Ran {
    within("ulimit -v 307200; ulimit -t 30", words, input)
}

/// The same within limits that the shell sets. A program that needs more is ended there, and the test fails.
fn within(limits: &str, words: &[&str], input: &[u8]) -> Ran {
    let ran = by_shell(&format!("{limits}; exec \"$@\""), words, input);
    assert_ne!(ran.status, -1, "ended by {limits}: {words:?} {}", ran.err);
    ran
}

/// The same on a terminal, for words without spaces. What is typed there stands in the output too, and lines end as a terminal ends them.
pub fn on_terminal(words: &[&str], typed: &[u8]) -> Ran {
    by_shell("exec script -qec \"$*\" /dev/null", words, typed)
}

const PROGRAM: &str = env!("CARGO_BIN_EXE_olgaemuri");

fn ran(command: &mut Command, input: &[u8]) -> Ran {
    let mut child = command
        .current_dir(root())
        .stdin(Stdio::piped())
        .stdout(Stdio::piped())
        .stderr(Stdio::piped())
        .spawn()
        .unwrap();
    let mut pipe = child.stdin.take().unwrap();
    let input = input.to_vec();
    // a program that reads no input may have gone by now
    let writer = std::thread::spawn(move || drop(pipe.write_all(&input)));
    let output = child.wait_with_output().unwrap();
    writer.join().unwrap();
    Ran {
        status: output.status.code().unwrap_or(-1),
        out: output.stdout,
        err: String::from_utf8(output.stderr).unwrap(),
    }
}

pub fn root() -> PathBuf {
    Path::new(env!("CARGO_MANIFEST_DIR")).join("../..")
}

pub fn example(name: &str) -> Vec<u8> {
    let path = root().join("examples").join(name);
    std::fs::read(&path).unwrap_or_else(|error| panic!("{}: {error}", path.display()))
}

/// A file of this process's own.
pub fn scratch(name: &str) -> PathBuf {
    std::env::temp_dir().join(format!("olgaemuri-{}-{name}", std::process::id()))
}
