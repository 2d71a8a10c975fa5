//! One session through both sides, and where their outcomes part.

use crate::guarded::Guarded;
use cases::sessions::{ANSWERS_BEFORE, JOURNAL_BEFORE, Outcome, RESULT_BEFORE, Run, Session};
use std::fmt::{Display, Formatter, Result};

/// The first thing in which the engine parts from the Rust.
#[derive(Debug, PartialEq)]
pub enum Difference {
    /// A byte outside the buffers was written.
    Guard,
    Number {
        rust: u8,
        engine: u8,
    },
    Byte {
        buffer: &'static str,
        at: usize,
        rust: u8,
        engine: u8,
    },
    /// What the wrapper derives, in words.
    Wrapper(String),
}

impl Display for Difference {
    fn fmt(&self, f: &mut Formatter<'_>) -> Result {
        match self {
            Self::Guard => write!(f, "a byte outside the buffers was written"),
            Self::Wrapper(words) => write!(f, "{words}"),
            Self::Number { rust, engine } => {
                write!(f, "returned {rust} in the Rust, {engine} in the engine")
            }
            Self::Byte {
                buffer,
                at,
                rust,
                engine,
            } => write!(
                f,
                "{buffer} differ first at byte {at}: {rust:02x} in the Rust, {engine:02x} in the engine"
            ),
        }
    }
}

/// What the engine returns and leaves; none where it wrote outside its buffers.
pub fn through_engine(run: Run, session: &Session) -> Option<Outcome> {
    let mut answers = Guarded::new(session.answers, ANSWERS_BEFORE);
    let mut journal = Guarded::new(session.journal, JOURNAL_BEFORE);
    let mut result = Guarded::new(session.result, RESULT_BEFORE);
    let number = run(
        &session.commands,
        &session.stream,
        journal.inner(),
        answers.inner(),
        result.inner(),
    );
    Some(Outcome {
        number,
        answers: answers.into_inner()?,
        journal: journal.into_inner()?,
        result: result.into_inner()?,
    })
}

/// Where the engine parts from the Rust on a session, if it does.
pub fn difference(run: Run, session: &Session) -> Option<Difference> {
    match through_engine(run, session) {
        None => Some(Difference::Guard),
        Some(engine) => first_difference(&session.expected(), &engine),
    }
}

/// Answers first: they say at which command.
fn first_difference(rust: &Outcome, engine: &Outcome) -> Option<Difference> {
    let buffers = [
        ("answers", &rust.answers, &engine.answers),
        ("journal", &rust.journal, &engine.journal),
        ("result", &rust.result, &engine.result),
    ];
    let byte = buffers.iter().find_map(|(buffer, rust, engine)| {
        let at = rust.iter().zip(engine.iter()).position(|(a, b)| a != b)?;
        let (rust, engine) = (rust[at], engine[at]);
        Some(Difference::Byte {
            buffer,
            at,
            rust,
            engine,
        })
    });
    let (rust, engine) = (rust.number, engine.number);
    byte.or_else(|| (rust != engine).then_some(Difference::Number { rust, engine }))
}

#[cfg(test)]
mod tests {
    use super::*;

    fn outcome() -> Outcome {
        Outcome {
            number: 0,
            answers: vec![1, 2],
            journal: vec![3, 4],
            result: vec![5, 6],
        }
    }

    #[test]
    fn every_part_of_an_outcome_is_compared() {
        let rust = outcome();
        assert_eq!(first_difference(&rust, &outcome()), None);
        let mut number = outcome();
        number.number = 9;
        let seen = first_difference(&rust, &number);
        assert_eq!(seen, Some(Difference::Number { rust: 0, engine: 9 }));
        let mut changed = [outcome(), outcome(), outcome()];
        changed[0].answers[1] = 9;
        changed[1].journal[1] = 9;
        changed[2].result[1] = 9;
        for (outcome, name) in changed.iter().zip(["answers", "journal", "result"]) {
            let seen = first_difference(&rust, outcome);
            assert!(
                matches!(seen, Some(Difference::Byte { buffer, at: 1, engine: 9, .. }) if buffer == name)
            );
        }
    }
}
