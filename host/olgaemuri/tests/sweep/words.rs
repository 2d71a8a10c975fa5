//! The words of `olgaemuri sweep` and `olgaemuri summary`.

use crate::program::{olgaemuri, scratch};
use std::fs;

#[test]
fn help() {
    for topic in ["sweep", "summary"] {
        let by_option = olgaemuri(&[topic, "--help"], b"");
        let by_word = olgaemuri(&["help", topic], b"");
        assert_eq!((by_option.status, by_word.status), (0, 0));
        assert_eq!(by_option.out, by_word.out);
        assert!(
            by_word
                .text()
                .starts_with(&format!("usage: olgaemuri {topic}"))
        );
        assert!(
            olgaemuri(&["--help"], b"")
                .text()
                .contains(&format!("olgaemuri {topic}"))
        );
    }
}

#[test]
fn wrong_words_are_told() {
    for (words, told) in [
        (
            "sweep --seed 1 --streams 1",
            "`olgaemuri sweep` takes one SESSION",
        ),
        (
            "sweep - --seed 1 --streams 1 --csv out.csv",
            "`olgaemuri sweep` takes one SESSION, or - for standard input, not `-` and `out.csv`; `--csv` and `--json` print the summary, and `--rows OUT` writes",
        ),
        (
            "sweep - --seed 1",
            "`--streams` and a whole number are missing",
        ),
        (
            "sweep - --streams 1",
            "`--seed` and a whole number are missing",
        ),
        (
            "sweep - --seed 1 --streams x",
            "expected a whole number behind `--streams`, not `x`",
        ),
        (
            "sweep - --seed 1 --streams 1 --threads 0",
            "`--threads` must be at least 1",
        ),
        (
            "sweep - --seed 1 --streams 1 --shard 3/2",
            "expected a part such as 1/4 or 4/4 behind `--shard`, not `3/2`",
        ),
        (
            "sweep - --seed 1 --streams 1 --csv --json",
            "`--csv` and `--json` do not go together",
        ),
        (
            "sweep - --seed 1 --streams 1 --title x",
            "`--title` needs `--svg OUT`",
        ),
        (
            "sweep - --seed 1 --streams 1 --rows - --svg -",
            "`--rows` and `--svg` name one file",
        ),
        ("summary", "`olgaemuri summary` takes files of rows"),
        (
            "summary - --csv --json",
            "`--csv` and `--json` do not go together",
        ),
    ] {
        let words: Vec<&str> = words.split(' ').collect();
        let ran = olgaemuri(&words, b"");
        assert_eq!((ran.status, ran.text()), (2, ""), "{words:?}");
        assert!(ran.err.starts_with(told), "{words:?}: {}", ran.err);
        assert!(
            ran.err
                .contains(&format!("\nusage: olgaemuri {}", words[0])),
            "{}",
            ran.err
        );
    }
}

#[test]
fn nothing_that_is_read_is_written_over() {
    let file = scratch("swept.session");
    let path = file.to_str().unwrap();
    fs::write(&file, "undo # kept\n").unwrap();
    for words in [
        vec![
            "sweep",
            path,
            "--seed",
            "1",
            "--streams",
            "1",
            "--rows",
            path,
        ],
        vec![
            "sweep",
            path,
            "--seed",
            "1",
            "--streams",
            "1",
            "--svg",
            path,
        ],
        vec!["summary", path, "--svg", path],
    ] {
        assert_eq!(olgaemuri(&words, b"").status, 2, "{words:?}");
        assert_eq!(fs::read_to_string(&file).unwrap(), "undo # kept\n");
    }
    fs::remove_file(&file).unwrap();
}

#[test]
fn a_bad_session_is_told() {
    let ran = olgaemuri(&["sweep", "-", "--seed", "1", "--streams", "5"], b"undoo\n");
    assert_eq!(ran.status, 2);
    assert!(ran.err.starts_with("standard input:1:1: "), "{}", ran.err);
}
