//! Which machine and which cause are meant, by number or by name.

use crate::cli::Failure;
use crate::cli::report::Report;
use olgaemuri::Command;
use olgaemuri::text::{Named, Names, cut, hint_or};
use std::collections::BTreeSet;

/// A machine and a cause that commands in force have set on it.
pub struct Asked {
    pub machine: u8,
    pub cause: u32,
}

impl Asked {
    /// The two that these words name, or what is there instead.
    pub fn of(report: &Report, machine: &str, cause: &str) -> Result<Self, Failure> {
        let names = report.names();
        let set: BTreeSet<(u8, u32)> = set(report).collect();
        let machines: BTreeSet<u32> = set.iter().map(|set| u32::from(set.0)).collect();
        let machine = one_of(names, Named::Machine, machine, &machines, "the session")?;
        let on_it = set.iter().filter(|set| u32::from(set.0) == machine);
        let causes: BTreeSet<u32> = on_it.map(|set| set.1).collect();
        let machine = machine as u8;
        let place = names.machine(machine);
        let cause = one_of(names, Named::Cause, cause, &causes, &place)?;
        Ok(Self { machine, cause })
    }
}

/// The machines and causes of the SETs in force.
fn set(report: &Report) -> impl Iterator<Item = (u8, u32)> {
    let applied = report.outcome().applied();
    applied.filter_map(|applied| match applied.command {
        Command::Set { clock, cause, .. } => Some((*clock, *cause)),
        _ => None,
    })
}

/// The number of these that a word names, or that it names none: a number, or a name, perhaps in quotes.
fn one_of(
    names: &Names,
    named: Named,
    word: &str,
    known: &BTreeSet<u32>,
    place: &str,
) -> Result<u32, Failure> {
    let quoted = word.strip_prefix('"').and_then(|w| w.strip_suffix('"'));
    let number = word.parse().ok().filter(|_| quoted.is_none());
    let word = quoted.unwrap_or(word);
    let number = number.or_else(|| names.number(named, word));
    let number = number.filter(|number| known.contains(number));
    number.ok_or_else(|| match named {
        Named::Machine => {
            let known: Vec<String> = known.iter().map(|m| names.machine(*m as u8)).collect();
            let none = "no command in force sets a cause";
            missing("machine with a cause", word, place, &known, none)
        }
        Named::Cause => {
            let known: Vec<String> = known.iter().map(|cause| names.cause(*cause)).collect();
            missing("cause", word, place, &known, "")
        }
    })
}

/// That there is no such thing, what was perhaps meant, and what there is.
fn missing(what: &str, word: &str, place: &str, known: &[String], none: &str) -> Failure {
    let listed = match known {
        [] => format!("; {none}"),
        [one] => format!("; there is {one}"),
        known => format!("; there are {}", enumerated(known)),
    };
    let words: Vec<&str> = known.iter().map(String::as_str).collect();
    let hint = hint_or(word, &words, &listed);
    Failure::from(format!("no {what} `{}` in {place}{hint}", cut(word, 60)))
}

/// The names one after another, the first of many.
fn enumerated(names: &[String]) -> String {
    const MOST: usize = 16;
    let more = names.len().saturating_sub(MOST);
    let shown = names[..names.len() - more].join(", ");
    match more {
        0 => shown,
        more => format!("{shown} and {more} more"),
    }
}
