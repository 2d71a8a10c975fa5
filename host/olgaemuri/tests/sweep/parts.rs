//! Parts of a sweep, joined, are the whole to the last byte, and threads make no difference.

use crate::program::{Ran, olgaemuri, scratch};
use std::fs;

const SHOP: &str = "examples/press-shop.session";

fn ran(words: &str) -> Ran {
    let words: Vec<&str> = words.split_whitespace().collect();
    let ran = olgaemuri(&words, b"");
    assert_eq!((ran.status, ran.err.as_str()), (0, ""), "{words:?}");
    ran
}

fn rows(more: &str) -> Vec<u8> {
    ran(&format!(
        "sweep {SHOP} --streams 203 --seed 9 --rows - {more}"
    ))
    .out
}

#[test]
fn joined_rows_are_the_whole() {
    let whole = rows("");
    assert!(whole.iter().filter(|byte| **byte == b'\n').count() > 203);
    for of in [1, 2, 3, 7, 300] {
        let parts: Vec<Vec<u8>> = (1..=of)
            .map(|part| rows(&format!("--shard {part}/{of}")))
            .collect();
        assert!(parts.concat() == whole, "{of} parts");
    }
}

#[test]
fn threads_make_no_difference() {
    let one = rows("--threads 1");
    for threads in [2, 3, 16] {
        assert!(
            rows(&format!("--threads {threads}")) == one,
            "{threads} threads"
        );
    }
    let summary = |threads| {
        ran(&format!(
            "sweep {SHOP} --streams 203 --seed 9 --threads {threads}"
        ))
        .out
    };
    assert!(summary(1) == summary(2));
}

/// Files of the two parts of a sweep.
struct Parts([String; 2]);

impl Parts {
    fn new(name: &str) -> Self {
        let path = |part: usize| {
            scratch(&format!("{name}-{part}.csv"))
                .to_str()
                .unwrap()
                .to_string()
        };
        let parts = Self([path(1), path(2)]);
        for (path, part) in parts.0.iter().zip(1..) {
            fs::write(path, rows(&format!("--shard {part}/2"))).unwrap();
        }
        parts
    }
}

impl Drop for Parts {
    fn drop(&mut self) {
        for path in &self.0 {
            let _ = fs::remove_file(path);
        }
    }
}

#[test]
fn joined_summaries_are_the_whole() {
    let parts = Parts::new("joined");
    let [one, two] = &parts.0;
    for more in ["", " --csv", " --json", " --svg -", " --svg - --title shop"] {
        let whole = ran(&format!("sweep {SHOP} --streams 203 --seed 9{more}"));
        let joined = ran(&format!("summary {one} {two}{more}"));
        assert!(
            whole.out == joined.out,
            "{more}: {}\n{}",
            whole.text(),
            joined.text()
        );
    }
    // the parts one after another on standard input are the same again
    let both = [fs::read(one).unwrap(), fs::read(two).unwrap()].concat();
    let piped = olgaemuri(&["summary", "-"], &both);
    assert_eq!(piped.out, ran(&format!("summary {one} {two}")).out);
}

#[test]
fn parts_that_are_missing_or_out_of_order_are_told() {
    let parts = Parts::new("odd");
    let [one, two] = &parts.0;
    for (files, line, expected, found) in [
        (vec![two, one], 2, 203, 0),
        (vec![one, one], 2, 101, 0),
        (vec![one, two, two], 1, 203, 101),
    ] {
        let words: Vec<&str> = std::iter::once("summary")
            .chain(files.iter().map(|file| file.as_str()))
            .collect();
        let ran = olgaemuri(&words, b"");
        let last = files.last().unwrap();
        let told = format!(
            "{last}:{line}: expected stream {expected}, not {found}: give every part once, in the order of the parts\n"
        );
        assert_eq!((ran.status, ran.err), (2, told));
    }
}

#[test]
fn rows_that_are_none_are_told() {
    let ran = olgaemuri(&["summary", "-"], b"0,,,,,,,,,,,\nx\n");
    assert_eq!(ran.status, 2);
    assert!(
        ran.err.starts_with("standard input:2: expected 12 cells"),
        "{}",
        ran.err
    );
    let ran = olgaemuri(&["summary", "no/such/file"], b"");
    assert_eq!(ran.status, 2);
    assert!(
        ran.err.starts_with("cannot read no/such/file: "),
        "{}",
        ran.err
    );
}

/// A run of a sweep can be made again by itself, over the thresholds of its stream.
#[test]
fn a_run_can_be_made_alone() {
    let session = fs::read_to_string(crate::program::root().join(SHOP)).unwrap();
    let without = session
        .lines()
        .filter(|line| !line.starts_with("thresholds"));
    let text = ran("thresholds --seed 9 --stream 17 --count 30");
    let thresholds: String = text
        .text()
        .lines()
        .map(|line| format!("thresholds {line}\n"))
        .collect();
    let alone = thresholds + &without.map(|line| format!("{line}\n")).collect::<String>();
    let alone = olgaemuri(&["run", "-", "--json"], alone.as_bytes());
    let report = crate::json::parse(alone.text()).unwrap();
    let swept = String::from_utf8(rows("")).unwrap();
    let swept: Vec<&str> = swept.lines().filter(|row| row.starts_with("17,")).collect();
    let breakdowns = report.get("breakdowns").array();
    assert_eq!(swept.len(), breakdowns.len());
    for (row, breakdown) in swept.iter().zip(breakdowns) {
        let cells: Vec<&str> = row.split(',').collect();
        assert_eq!(cells[1], breakdown.get("machine").number().to_string());
        assert_eq!(cells[7].parse(), Ok(breakdown.get("time").number()));
        assert_eq!(cells[8], breakdown.get("ticks").text());
        assert_eq!(cells[9], breakdown.get("state").text());
        let piece = breakdown.get("piece");
        let piece = (*piece != crate::json::Value::Null).then(|| piece.number().to_string());
        assert_eq!(cells[11], piece.unwrap_or_default());
    }
}
