//! Help that teaches. A subcommand's text begins with its usage, down to the first empty line.

use crate::cli::Failure;
use crate::cli::files::write;
use crate::cli::report_table::wrapped;
use crate::cli::wording::meaning;
use olgaemuri::text::hint_or;

pub const GENERAL: &str = include_str!("general.txt");

pub const RUN: &str = include_str!("run.txt");

pub const COMPARE: &str = include_str!("compare.txt");

pub const CONVERT: &str = include_str!("convert.txt");

pub const INTERACTIVE: &str = include_str!("interactive.txt");

pub const THRESHOLDS: &str = include_str!("thresholds.txt");

pub const SWEEP: &str = include_str!("sweep.txt");

pub const SUMMARY: &str = include_str!("summary.txt");

pub const RATE: &str = include_str!("rate.txt");

pub const CURVE: &str = include_str!("curve.txt");

pub const FORMAT: &str = include_str!("format.txt");

pub const ANSWERS: &str = include_str!("answers.txt");

/// The topics of `olgaemuri help`.
const TOPICS: [(&str, &str); 11] = [
    ("run", RUN),
    ("compare", COMPARE),
    ("convert", CONVERT),
    ("interactive", INTERACTIVE),
    ("thresholds", THRESHOLDS),
    ("sweep", SWEEP),
    ("summary", SUMMARY),
    ("rate", RATE),
    ("curve", CURVE),
    ("format", FORMAT),
    ("answers", ANSWERS),
];

/// Shows a topic, what is said of a word of the format, or where to begin.
pub fn show(word: Option<&str>) -> Result<u8, Failure> {
    let text = match word {
        None => GENERAL.to_string(),
        Some(word) => match topic(word) {
            Some(text) => text,
            None => on_word(word)?,
        },
    };
    write("-", text.as_bytes())?;
    Ok(0)
}

/// What is said of a topic.
pub fn topic(name: &str) -> Option<String> {
    if name == "refusals" {
        return Some(refusals());
    }
    let known = TOPICS.iter().find(|known| known.0 == name)?;
    Some(known.1.to_string())
}

/// What is said of a word of the format.
fn on_word(word: &str) -> Result<String, Failure> {
    let lines = lines_on(word, &[FORMAT]);
    if !lines.is_empty() {
        return Ok(lines);
    }
    let topics = TOPICS.iter().map(|known| known.0);
    let names: Vec<&str> = topics.chain(["refusals"]).collect();
    let hint = hint_or(word, &names, &format!("; there are {}", names.join(", ")));
    Err(Failure::from(format!("there is no help on `{word}`{hint}")))
}

/// Every refusal with its number.
fn refusals() -> String {
    let head = "A refused command changes nothing. The numbers are document 01's; 23 and 24,\n\
        document 02's, are those of `olgaemuri rate`.\n\n"
        .to_string();
    let lines = olgaemuri::Refusal::ALL.iter().map(|refusal| {
        let lines = wrapped(&meaning(*refusal), 74).join("\n      ");
        format!("  {:2}  {lines}\n", refusal.number())
    });
    std::iter::once(head).chain(lines).collect()
}

/// What `help` says to one who types a session.
pub fn typed() -> String {
    let (_, typed) = INTERACTIVE.split_once('\n').unwrap_or_default();
    format!("{typed}\n{}", FORMAT.trim_end())
}

/// The kinds of hazards, which the format tells of under `hazard`.
const KINDS: [&str; 5] = ["zero", "constant", "gompertz", "piecewise", "weibull"];

/// The lines of these texts that tell of one word, with those that go on from them.
pub fn lines_on(word: &str, texts: &[&str]) -> String {
    let word = if KINDS.contains(&word) {
        "hazard"
    } else {
        word
    };
    let mut out = String::new();
    let mut wanted = false;
    for line in texts.iter().flat_map(|text| text.lines()) {
        let goes_on = line.starts_with("   ");
        let first = line
            .strip_prefix("  ")
            .and_then(|line| line.split(' ').next());
        wanted = if goes_on { wanted } else { first == Some(word) };
        if wanted {
            out += &format!("{line}\n");
        }
    }
    out
}
