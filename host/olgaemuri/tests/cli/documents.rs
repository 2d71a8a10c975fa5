//! What the documents show is what the program prints.

use super::program::{example, olgaemuri, root, scratch};
use std::fs;

/// The file that holds the tour, below the repository's root.
const README: &str = "README.md";

/// A file below the repository's root.
fn text_of(file: &str) -> String {
    fs::read_to_string(root().join(file)).unwrap_or_else(|error| panic!("{file}: {error}"))
}

/// The blocks of a document between three backticks that name this language, or none.
fn blocks_in(document: &str, language: &str) -> Vec<String> {
    let text = text_of(document);
    let fenced = text.split("```").skip(1).step_by(2);
    fenced
        .filter_map(|block| block.strip_prefix(language)?.strip_prefix('\n'))
        .map(str::to_string)
        .collect()
}

fn blocks(document: &str) -> Vec<String> {
    blocks_in(document, "")
}

#[test]
fn the_tour_can_be_typed() {
    let tour: Vec<String> = blocks(README)
        .into_iter()
        .filter(|block| block.starts_with("> "))
        .collect();
    assert_eq!(tour.len(), 4);
    let tour = tour.concat();
    let (typed, shown): (Vec<&str>, Vec<&str>) = tour.lines().partition(|l| l.starts_with("> "));
    let input: String = typed
        .iter()
        .map(|line| format!("{}\n", &line[2..]))
        .collect();
    let ran = olgaemuri(&["interactive"], input.as_bytes());
    let printed: Vec<&str> = ran.text().lines().skip(2).collect();
    assert_eq!(printed, shown);
}

#[test]
fn the_lines_of_the_example_are_in_its_output() {
    let stored = ["press-shop.out", "press-shop-compare.out"]
        .map(example)
        .concat();
    let stored = String::from_utf8(stored).unwrap();
    let tables: Vec<String> = blocks(README)
        .into_iter()
        .filter(|block| block.starts_with("no  "))
        .collect();
    assert_eq!(tables.len(), 2);
    for line in tables.concat().lines().filter(|line| *line != "...") {
        assert!(stored.lines().any(|other| other == line), "{line}");
    }
}

/// The curve as the README shows it, without the last words.
#[test]
fn the_curve_is_shown_as_it_is_printed() {
    let shown = blocks(README).into_iter();
    let shown = shown.filter(|block| block.starts_with("punch 1: tool break."));
    let shown: Vec<String> = shown.collect();
    let printed = String::from_utf8(example("punch-life-curve.out")).unwrap();
    assert_eq!(shown.len(), 1);
    assert!(printed.starts_with(&format!("{}\n", shown[0])), "{printed}");
    let words = "olgaemuri curve examples/punch-life.session \"punch 1\" \"tool break\"";
    assert!(text_of(README).contains(&format!("\n    {words} --svg curve.svg\n")));
}

/// A Rust program without what its layout is free in.
fn without_layout(program: &str) -> String {
    program
        .split_whitespace()
        .collect::<String>()
        .replace(",}", "}")
}

/// The programs themselves are run by tests/embedding.rs.
#[test]
fn the_rust_programs_are_those_that_are_tested() {
    let shown = blocks_in(README, "rust");
    let tested =
        ["embed", "engine"].map(|name| text_of(&format!("host/olgaemuri/examples/{name}.rs")));
    assert_eq!(shown.len(), tested.len());
    for (shown, tested) in shown.iter().zip(&tested) {
        assert_eq!(without_layout(shown), without_layout(tested));
    }
}

#[test]
fn every_link_leads_to_a_file() {
    let text = text_of(README);
    let links: Vec<&str> = text
        .split("](")
        .skip(1)
        .filter_map(|rest| rest.split(')').next())
        .collect();
    assert!(links.contains(&"examples/press-shop.svg"));
    assert!(links.contains(&"docs/TRUSTED.md"));
    for link in links {
        assert!(root().join(link).is_file(), "{link}");
    }
}

const FORMAT: &str = "docs/SESSION-FORMAT.md";

#[test]
fn the_session_in_the_format_runs() {
    let session = &blocks(FORMAT)[0];
    let ran = olgaemuri(&["run", "-"], session.as_bytes());
    assert_eq!((ran.status, ran.err.as_str()), (0, ""));
    let summary = "5 commands: 5 accepted, 0 refused; 1 taken back, 3 in force.";
    assert!(ran.text().contains(summary), "{}", ran.text());
}

#[test]
fn the_bad_line_in_the_format_is_told_like_that() {
    let told = &blocks(FORMAT)[1];
    let line = told.lines().nth(1).unwrap().trim_start();
    let file = scratch("shop.session");
    fs::write(&file, format!("{}{line}\n", "\n".repeat(6))).unwrap();
    let path = file.to_str().unwrap();
    let ran = olgaemuri(&["run", path], b"");
    fs::remove_file(&file).unwrap();
    assert_eq!(ran.err, told.replace("shop.session", path));
}

/// What stands between a quote and the next in JSON, where a colon follows.
fn keys(json: &str) -> Vec<&str> {
    let parts: Vec<&str> = json.split('"').collect();
    let named = parts.windows(2).filter(|pair| pair[1].starts_with(": "));
    named.map(|pair| pair[0]).collect()
}

#[test]
fn every_field_of_csv_and_json_is_in_the_format() {
    let text = text_of(FORMAT);
    let (_, fields) = text.split_once("## Answers as CSV and JSON").unwrap();
    let csv = text_of("examples/press-shop.csv");
    let json = text_of("examples/press-shop.json");
    let columns: Vec<&str> = csv.lines().next().unwrap().split(',').collect();
    let keys = keys(&json);
    assert!(columns.len() == 19 && keys.contains(&"scheduled_at"));
    for name in columns.into_iter().chain(keys) {
        assert!(fields.contains(&format!("`{name}`")), "{name}");
    }
}

/// The line for wear that the format shows, with the thresholds and the hours that it tells.
#[test]
fn the_wear_in_the_format() {
    let line = "set machine=0 cause=3 now=0 hazard=weibull scale=400";
    let told = format!("`{line}` uses up a threshold of 0.25 in 200 hours, 1 in 400 and 4 in 800.");
    let words = |text: &str| text.split_whitespace().collect::<Vec<_>>().join(" ");
    assert!(words(&text_of(FORMAT)).contains(&told), "{told}");
    for (threshold, hours) in [("0.25", 200), ("1", 400), ("4", 800)] {
        let session = format!(
            "thresholds {threshold}\ncreate machine=0 policy=retain\n{line}\nreschedule machine=0 now=0\n"
        );
        let ran = olgaemuri(&["run", "-"], session.as_bytes());
        let breakdown = format!("machine 0  cause 3  {hours}   {hours}  scheduled");
        assert!(ran.text().contains(&breakdown), "{}", ran.text());
        assert!(ran.text().contains("cause 3: weibull scale 400"));
    }
}

/// What "What the commands do" says: behind one press that is due at tick 4, these lines, and the tick at which it is due then.
const DUE: [(&str, u32); 7] = [
    ("reschedule machine=0 now=2", 6),
    ("pause machine=0 now=2\nresume machine=0 now=2", 4),
    (
        "pause machine=0 now=1\npause machine=0 now=2\nresume machine=0 now=2",
        5,
    ),
    (
        "set machine=0 cause=1 now=2 hazard=constant rate=1\nreschedule machine=0 now=2",
        3,
    ),
    ("remove machine=0 cause=1", 4),
    ("deliver\nresume machine=0 now=10", 14),
    (
        "deliver\nset machine=0 cause=1 now=10 hazard=constant rate=0.5\nresume machine=0 now=10",
        16,
    ),
];

#[test]
fn what_the_commands_do() {
    let press = "thresholds 2 3\ncreate machine=0 policy=retain\n\
        set machine=0 cause=1 now=0 hazard=constant rate=0.5\nreschedule machine=0 now=0\n";
    for (lines, tick) in DUE {
        let ran = olgaemuri(&["interactive"], format!("{press}{lines}\n").as_bytes());
        let status = ran.text().lines().last().unwrap();
        let due = format!("; scheduled: machine 0 by cause 1 at tick {tick}; ");
        assert!(status.contains(&due), "{lines}\n{status}");
    }
}
