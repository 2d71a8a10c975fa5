//! `olgaemuri thresholds`.

use crate::program::{olgaemuri, scratch};
use olgaemuri::{Exponential, thresholds_from_bytes};
use std::fs;

fn printed(words: &str) -> Vec<u8> {
    let words: Vec<&str> = words.split(' ').collect();
    let ran = olgaemuri(&words, b"");
    assert_eq!((ran.status, ran.err.as_str()), (0, ""), "{words:?}");
    ran.out
}

#[test]
fn text_and_bytes_say_the_same() {
    let text = printed("thresholds --seed 1 --count 1000");
    let text = String::from_utf8(text).unwrap();
    let bytes = printed("thresholds --seed=1 --count=1000 --bytes --stream 0 -");
    let read: Vec<f64> = text.lines().map(|line| line.parse().unwrap()).collect();
    assert_eq!(read, thresholds_from_bytes(&bytes).unwrap());
    assert_eq!(
        read,
        Exponential::new(1, 0).take(1000).collect::<Vec<f64>>()
    );
    assert!(
        text.starts_with("0.22953728848574126\n0.449543599574007\n"),
        "{text}"
    );
}

#[test]
fn streams_and_seeds_differ_and_fewer_are_the_first_of_more() {
    let more = printed("thresholds --seed 1 --count 9 --stream 4");
    let fewer = printed("thresholds --seed 1 --count 3 --stream 4");
    assert!(more.starts_with(&fewer) && fewer.len() > 20);
    assert!(!more.starts_with(&printed("thresholds --seed 1 --count 3 --stream 5")));
    assert!(!more.starts_with(&printed("thresholds --seed 2 --count 3 --stream 4")));
    assert_eq!(
        printed("thresholds --seed 18446744073709551615 --count 0"),
        b""
    );
}

#[test]
fn a_session_reads_the_file() {
    let file = scratch("drawn.thresholds");
    let path = file.to_str().unwrap();
    printed(&format!("thresholds --seed 1 --count 2 {path}"));
    let session = format!(
        "thresholds from \"{path}\"\ncreate machine=0 policy=retain\n\
         set machine=0 cause=1 now=0 hazard=constant rate=1\nreschedule machine=0 now=0\n"
    );
    let ran = olgaemuri(&["run", "-", "--csv"], session.as_bytes());
    fs::remove_file(&file).unwrap();
    assert_eq!(ran.status, 0, "{}", ran.err);
    assert!(
        ran.text().contains(",0.22953728848574126,"),
        "{}",
        ran.text()
    );
}

#[test]
fn wrong_words_are_told() {
    for (words, told) in [
        (
            "thresholds --count 1",
            "`--seed` and a whole number are missing",
        ),
        (
            "thresholds --seed 1",
            "`--count` and a whole number are missing",
        ),
        (
            "thresholds --seed -1 --count 1",
            "expected a whole number behind `--seed`, not `-1`",
        ),
        (
            "thresholds --seed 1.5 --count 1",
            "expected a whole number behind `--seed`, not `1.5`",
        ),
        (
            "thresholds --seed 18446744073709551616 --count 1",
            "expected a whole number behind `--seed`, not `18446744073709551616`",
        ),
        (
            "thresholds --seed 1 --count 1 a b",
            "`olgaemuri thresholds` takes one OUT",
        ),
        (
            "thresholds --sead 1",
            "unknown option `--sead`; did you mean `--seed`?",
        ),
    ] {
        let words: Vec<&str> = words.split(' ').collect();
        let ran = olgaemuri(&words, b"");
        assert_eq!(ran.status, 2, "{words:?}");
        assert!(ran.err.starts_with(told), "{words:?}: {}", ran.err);
        assert!(
            ran.err.contains("\nusage: olgaemuri thresholds"),
            "{}",
            ran.err
        );
    }
}

#[test]
fn help() {
    let by_option = olgaemuri(&["thresholds", "--help"], b"");
    let by_word = olgaemuri(&["help", "thresholds"], b"");
    assert_eq!((by_option.status, by_word.status), (0, 0));
    assert_eq!(by_option.out, by_word.out);
    assert!(by_word.text().starts_with("usage: olgaemuri thresholds"));
}
