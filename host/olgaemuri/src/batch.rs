//! One batch run, with buffers that are long enough for it.

use crate::answer::{ANSWER_BYTES, Answer};
use crate::refusal::Refusal;
use olgaemuri_sys::RESULT_BYTES;

/// What a batch run gave back.
pub(crate) struct Ran {
    pub end: Option<Refusal>,
    pub bytes_read: u64,
    /// Kept where it is looked at.
    pub journal: Option<Vec<u8>>,
    answers: Vec<u8>,
    answered: usize,
}

impl Ran {
    pub fn answers(&self) -> impl Iterator<Item = Answer> {
        let answers = self.answers.as_chunks().0.iter().take(self.answered);
        answers.map(|bytes| Answer::from_bytes(bytes).expect("the engine's layout"))
    }
}

/// Runs a list of that many inputs from opening. The stream is whole thresholds.
pub(crate) fn run(commands: &[u8], inputs: usize, stream: &[u8], journal_length: usize) -> Ran {
    #[cfg(test)]
    counted::RUNS.with(|runs| runs.set(runs.get() + 1));
    let mut journal = vec![0; journal_length];
    let mut answers = vec![0; ANSWER_BYTES * inputs];
    let mut result = [0; RESULT_BYTES];
    let number = olgaemuri_sys::run(commands, stream, &mut journal, &mut answers, &mut result);
    let [answered, bytes_read] = [0, 8].map(|at| {
        let field = result[at..].first_chunk().expect("the result has 16 bytes");
        u64::from_le_bytes(*field)
    });
    Ran {
        end: Refusal::from_number(number),
        bytes_read,
        journal: cfg!(debug_assertions).then_some(journal),
        answers,
        answered: answered as usize,
    }
}

/// How many runs there were in this thread.
#[cfg(test)]
pub(crate) mod counted {
    use std::cell::Cell;

    thread_local! {
        pub static RUNS: Cell<usize> = const { Cell::new(0) };
    }

    /// How many runs the work takes.
    pub fn runs<T>(work: impl FnOnce() -> T) -> usize {
        let before = RUNS.get();
        work();
        RUNS.get() - before
    }
}
