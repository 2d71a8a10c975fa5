//! `states [SEED [COUNT [EACH]]]`: chosen states that are handed in, with two or three commands each; then the fixed sessions and COUNT
//! random ones, one of ten with events at equal ticks, command by command through the proved engine, whose state lies in rows of this
//! program, and through the unchanged Rust behind document 01's rules. After each command the answer, the journal, the applied commands and
//! every field of the state are compared; beside each, the same is done EACH times (once where it is left out; 0 for none) from a state or
//! a journal with a field changed, and from rows with any number changed. At the end the answers and the journal are held to those of the
//! batch run; after some sessions UNDO is given to rows with each number changed in turn. Ends with 1 at the first difference.

#![forbid(unsafe_code)]

mod both;
mod engine;
mod handed_in;
mod handed_in_pieces;
mod layout;
mod reading;
mod rows;
mod tally;
mod tampered;
mod tampering;

use both::Both;
use cases::random::Random;
use cases::sessions::{JOURNAL_BEFORE, Session};
use cases::{equal_ticks, lists, session_kinds};
use layout::Layout;
use olgaemuri_sys::{ANSWER_BYTES, RESULT_BYTES, THRESHOLD_BYTES};
use reference::command::width;
use std::env;
use std::process::ExitCode;
use tally::Tally;
use tampered::Tries;

/// One of so many sessions ends with UNDO to each changed number.
const SWEPT: usize = 100;

fn main() -> ExitCode {
    let Some([seed, count, each]) = numbers(env::args().skip(1)) else {
        eprintln!("usage: states [SEED [COUNT [EACH]]]");
        return ExitCode::from(2);
    };
    match compare_all(seed, count, each) {
        Ok(tally) => {
            println!(
                "seed {seed}: the fixed sessions and {count} random ones, {tally}; no difference"
            );
            ExitCode::SUCCESS
        }
        Err(words) => {
            println!("seed {seed}, {words}");
            ExitCode::FAILURE
        }
    }
}

/// What was compared, or the first difference in words.
fn compare_all(seed: u64, count: u64, each: u64) -> Result<Tally, String> {
    let layout = Layout::new();
    let mut handed_in = handed_in::compare(&layout)?;
    handed_in.add(&handed_in_pieces::compare(&layout)?);
    let mut tally = Tally {
        handed_in,
        ..Tally::default()
    };
    let (mut source, mut random) = (Random::new(seed), Random::new(!seed));
    let more = (0..count).map(|place| random_session(&mut source, place));
    for (index, s) in lists::sessions().into_iter().chain(more).enumerate() {
        let mut tries = Tries {
            layout: &layout,
            stream: &s.stream,
            random: &mut random,
            tally: &mut tally,
        };
        let swept = each > 0 && index % SWEPT == 0;
        let said = |words| format!("session {index}, {words}\n{s:?}");
        compare(&mut tries, &s, each, swept).map_err(said)?;
    }
    if each > 0 && !tally.is_full() {
        return Err(format!(
            "{tally}: a kind of refusal or of rows did not occur"
        ));
    }
    Ok(tally)
}

/// The random session at a place.
fn random_session(random: &mut Random, place: u64) -> Session {
    if place % 10 == 9 {
        equal_ticks::session(random)
    } else {
        session_kinds::random(random)
    }
}

/// The three numbers, or 1, 1000 and 1 where they are left out; none where a word is no number or there are more.
fn numbers(words: impl Iterator<Item = String>) -> Option<[u64; 3]> {
    let given: Option<Vec<u64>> = words.map(|word| word.parse().ok()).collect();
    match *given?.as_slice() {
        [] => Some([1, 1000, 1]),
        [seed] => Some([seed, 1000, 1]),
        [seed, count] => Some([seed, count, 1]),
        [seed, count, each] => Some([seed, count, each]),
        _ => None,
    }
}

/// A session's commands, each followed by inputs to tampered states.
fn compare(tries: &mut Tries, s: &Session, each: u64, swept: bool) -> Result<(), String> {
    let layout = tries.layout;
    let mut both = Both::open(s.journal);
    both.same_state(layout)
        .map_err(|words| format!("at opening: {words}"))?;
    let (mut rest, mut answers) = (&s.commands[..], Vec::new());
    while !rest.is_empty() {
        let number = answers.len() / ANSWER_BYTES + 1;
        let said = |words| format!("command {number}: {words}");
        answers.extend(both.give(layout, &s.stream, rest).map_err(said)?);
        tries.tally.commands += 1;
        let read = width(rest[0]).unwrap_or(rest.len()).min(rest.len());
        rest = &rest[read..];
        for _ in 0..each {
            let said = |words| format!("after command {number}, {words}");
            tries.other_field(&both, rest).map_err(said)?;
            tries.other_number(&both, rest).map_err(said)?;
        }
    }
    if swept {
        tries.each_number(&both)?;
    }
    same_run(s, &answers, &both.journal)
}

/// The batch run over the same commands and whole thresholds: every answer, and the journal.
fn same_run(s: &Session, answers: &[u8], journal: &[u8]) -> Result<(), String> {
    let stream = &s.stream[..s.stream.len() / THRESHOLD_BYTES * THRESHOLD_BYTES];
    let mut run_journal = vec![JOURNAL_BEFORE; s.journal];
    let (mut run_answers, mut result) = (vec![0; answers.len()], [0; RESULT_BYTES]);
    olgaemuri_sys::run(
        &s.commands,
        stream,
        &mut run_journal,
        &mut run_answers,
        &mut result,
    );
    let answered = (answers.len() / ANSWER_BYTES) as u64;
    if result[..8] == answered.to_le_bytes() && run_answers == answers && run_journal == journal {
        return Ok(());
    }
    Err("the batch run gives other answers or another journal".to_string())
}

#[cfg(test)]
mod tests {
    use super::numbers;

    #[test]
    fn words_that_are_no_numbers() {
        let read = |words: &str| numbers(words.split_whitespace().map(str::to_string));
        assert_eq!(read(""), Some([1, 1000, 1]));
        assert_eq!(read("7"), Some([7, 1000, 1]));
        assert_eq!(read("7 20"), Some([7, 20, 1]));
        assert_eq!(read("7 20 3"), Some([7, 20, 3]));
        for words in ["foo", "7 foo", "-1", "7 20 3 4"] {
            assert_eq!(read(words), None, "{words}");
        }
    }
}
