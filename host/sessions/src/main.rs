//! `sessions SEED COUNT [KIND]`: the chosen sessions and COUNT random ones, of every kind or of one, through the batch run of the proved
//! engine and through the unchanged Rust behind document 01's rules. Compares the returned number, every byte of answers, journal and
//! result, and what the wrapper derives from these with the oracle's state. The first session on which they part is shrunk and printed, and
//! the program ends with 1.

#![forbid(unsafe_code)]

mod comparison;
mod derived;
mod guarded;
mod report;
mod shrink;

use cases::random::Random;
use cases::session_kinds::{self, KINDS, Maker};
use cases::sessions::{Run, Session, command_count};
use comparison::Difference;
use std::env;
use std::process::ExitCode;

const ENGINE: Run = olgaemuri_sys::run;

fn main() -> ExitCode {
    let words: Vec<String> = env::args().skip(1).collect();
    let Some((seed, count, maker)) = arguments(&words) else {
        let names = KINDS.map(|(name, _, _)| name).join(", ");
        eprintln!("usage: sessions SEED COUNT [KIND]\nKIND is one of {names}");
        return ExitCode::from(2);
    };
    let chosen = session_kinds::chosen();
    let mut random = Random::new(seed);
    let random = (0..count).map(|_| maker(&mut random));
    let (mut sessions, mut commands) = (0, 0);
    for session in chosen.into_iter().chain(random) {
        sessions += 1;
        commands += command_count(&session.commands);
        if difference(&session).is_some() {
            println!("seed {seed}, session {sessions}: the sides part");
            print!("{}", smallest(&session));
            return ExitCode::FAILURE;
        }
    }
    println!("seed {seed}: {sessions} sessions, {commands} commands, no difference");
    ExitCode::SUCCESS
}

/// Seed, count, and what makes the random sessions; none where a word is not understood.
fn arguments(words: &[String]) -> Option<(u64, u64, Maker)> {
    let (numbers, maker) = match words {
        [seed, count] => ([seed, count], session_kinds::random as Maker),
        [seed, count, kind] => {
            let (_, _, maker) = KINDS.into_iter().find(|(name, _, _)| name == kind)?;
            ([seed, count], maker)
        }
        _ => return None,
    };
    Some((numbers[0].parse().ok()?, numbers[1].parse().ok()?, maker))
}

/// Where the sides part on a session, or else the wrapper and the oracle.
fn difference(session: &Session) -> Option<Difference> {
    bytes_difference(session).or_else(|| wrapper_difference(session))
}

fn bytes_difference(session: &Session) -> Option<Difference> {
    comparison::difference(ENGINE, session)
}

fn wrapper_difference(session: &Session) -> Option<Difference> {
    derived::difference(session).map(Difference::Wrapper)
}

/// The smallest session found on which the sides still part, in words. A difference of bytes stays one.
fn smallest(session: &Session) -> String {
    let difference = match bytes_difference(session) {
        Some(_) => bytes_difference,
        None => wrapper_difference,
    };
    let small = shrink::shrink(session, &|session| difference(session).is_some());
    let seen = difference(&small).expect("shrinking keeps a difference");
    report::report(ENGINE, &small, &seen)
}

#[cfg(test)]
mod tests {
    use super::arguments;

    #[test]
    fn words_that_are_understood() {
        let read = |line: &str| {
            let words: Vec<String> = line.split_whitespace().map(str::to_string).collect();
            arguments(&words).map(|(seed, count, _)| (seed, count))
        };
        assert_eq!(read("7 20"), Some((7, 20)));
        assert_eq!(read("7 20 equal-ticks"), Some((7, 20)));
        for line in ["", "7", "7 -1", "x 20", "7 20 ties", "7 20 junk cuts"] {
            assert_eq!(read(line), None, "{line}");
        }
    }
}
