//! What docs/SWEEPS.md shows can be done as it stands there.

use crate::program::{olgaemuri, root, scratch};
use std::fs;
use std::os::unix::fs::symlink;
use std::path::{Path, PathBuf};
use std::process::Command;

fn text() -> String {
    fs::read_to_string(root().join("docs/SWEEPS.md")).unwrap()
}

/// The blocks between three backticks that name this language, or none.
fn blocks(language: &str) -> Vec<String> {
    let text = text();
    let fenced = text.split("```").skip(1).step_by(2);
    let named = fenced.filter_map(|block| block.strip_prefix(language)?.strip_prefix('\n'));
    named.map(str::to_string).collect()
}

/// A folder of this process's own, with the examples in it.
struct Folder(PathBuf);

impl Folder {
    fn new(name: &str) -> Self {
        let folder = scratch(name);
        fs::create_dir(&folder).unwrap();
        symlink(
            fs::canonicalize(root().join("examples")).unwrap(),
            folder.join("examples"),
        )
        .unwrap();
        Self(folder)
    }

    /// Runs lines of a shell here, with the program on the path and these variables; what they print.
    fn shell(&self, lines: &str, variables: &[(&str, String)]) -> Vec<u8> {
        let program = Path::new(env!("CARGO_BIN_EXE_olgaemuri")).parent().unwrap();
        let path = format!("{}:{}", program.display(), std::env::var("PATH").unwrap());
        let mut shell = Command::new("sh");
        shell
            .args(["-eu", "-c", lines])
            .current_dir(&self.0)
            .env("PATH", path);
        let output = shell.envs(variables.iter().cloned()).output().unwrap();
        assert!(
            output.status.success(),
            "{lines}\n{}",
            String::from_utf8_lossy(&output.stderr)
        );
        output.stdout
    }
}

impl Drop for Folder {
    fn drop(&mut self) {
        let _ = fs::remove_dir_all(&self.0);
    }
}

const WHOLE: &str = "sweep examples/press-shop.session --seed 1 --streams";

fn whole(streams: &str, more: &str) -> Vec<u8> {
    let words: Vec<&str> = WHOLE
        .split(' ')
        .chain([streams])
        .chain(more.split_whitespace())
        .collect();
    olgaemuri(&words, b"").out
}

#[test]
fn the_table() {
    let printed = String::from_utf8(whole("10000", "")).unwrap();
    for line in blocks("")[0].lines().filter(|line| *line != "...") {
        assert!(
            printed.lines().any(|other| other == line),
            "{line}\n{printed}"
        );
    }
}

#[test]
fn the_picture() {
    let title = "A press shop over two weeks, in hours, ten thousand times";
    let words = WHOLE
        .split(' ')
        .chain(["10000", "--svg", "-", "--title", title]);
    let drawn = olgaemuri(&words.collect::<Vec<&str>>(), b"").out;
    assert!(drawn == crate::program::example("press-shop-sweep.svg"));
    assert!(text().contains("(../examples/press-shop-sweep.svg)"));
}

#[test]
fn the_heads_of_the_rows() {
    let printed = String::from_utf8(whole("1", "--rows -")).unwrap();
    let heads = printed.lines().next().unwrap();
    assert!(text().contains(&format!("\n    {heads}\n")));
}

/// The lines behind four spaces that follow a place of the document.
fn lines_after(place: &str) -> String {
    let text = text();
    let (_, rest) = text.split_once(place).unwrap();
    let lines = rest.lines().skip_while(|line| !line.starts_with("    "));
    let lines = lines.map_while(|line| line.strip_prefix("    "));
    lines.map(|line| format!("{line}\n")).collect()
}

#[test]
fn two_parts() {
    let folder = Folder::new("document-parts");
    let printed = folder.shell(&lines_after("\n## Parts\n"), &[]);
    assert!(printed == whole("10000", ""));
    assert!(fs::read(folder.0.join("rows.csv")).unwrap() == whole("10000", "--rows -"));
}

/// The jobs of the array, one after another, with the variables that Slurm sets.
#[test]
fn a_slurm_array() {
    let folder = Folder::new("document-slurm");
    let [part, join] = &blocks("sh")[..] else {
        panic!("two scripts");
    };
    assert!(part.contains("--array=1-64\n"));
    for task in 1..=64 {
        let variables = [
            ("SLURM_ARRAY_TASK_ID", task.to_string()),
            ("SLURM_ARRAY_TASK_COUNT", "64".to_string()),
            ("SLURM_CPUS_PER_TASK", "2".to_string()),
        ];
        folder.shell(
            &part.replace("--streams 1000000", "--streams 1000"),
            &variables,
        );
    }
    folder.shell(join, &[]);
    let read = |name: &str| fs::read(folder.0.join(name)).unwrap();
    assert!(read("sweep.txt") == whole("1000", ""));
    assert!(read("sweep.svg") == whole("1000", "--svg -"));
}

/// Where GNU parallel is there; elsewhere nothing is tried.
#[test]
fn gnu_parallel() {
    let version = Command::new("parallel").arg("--version").output();
    if !version.is_ok_and(|said| said.stdout.starts_with(b"GNU parallel")) {
        eprintln!("not run: GNU parallel is not installed");
        return;
    }
    let folder = Folder::new("document-parallel");
    let printed = folder.shell(&lines_after("\n### GNU parallel\n"), &[]);
    assert!(printed == whole("10000", ""));
}
