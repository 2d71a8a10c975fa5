//! The batch run (document 01's run call): a whole list of commands given to a newly opened engine.

use crate::answer::{ANSWER_BYTES, Answer};
use crate::command::width;
use crate::execute::execute;
use crate::refusal::Refusal;
use crate::state::{State, open};
use kairo_ecs_rng::THRESHOLD_BYTES;

/// Commands answered u64, bytes read u64.
pub const RESULT_BYTES: usize = 16;

/// Returns 0 at the list's end, or the number that ended the run: 2 or 3 of a command, 17 for lack
/// of room, 18 before anything is written. Answer bytes past the last answer are untouched.
pub fn run(
    commands: &[u8],
    stream: &[u8],
    journal: &mut [u8],
    answers: &mut [u8],
    result: &mut [u8],
) -> u8 {
    run_with(execute, commands, stream, journal, answers, result)
}

/// What answers one input: state, journal, stream, input.
pub type Execute = fn(&mut State, &mut [u8], &[u8], &[u8]) -> Answer;

/// The batch run over any way to answer one input.
pub fn run_with(
    execute: Execute,
    commands: &[u8],
    stream: &[u8],
    journal: &mut [u8],
    answers: &mut [u8],
    result: &mut [u8],
) -> u8 {
    if !stream.len().is_multiple_of(THRESHOLD_BYTES) || result.len() != RESULT_BYTES {
        return Refusal::InvalidBuffers.number();
    }
    let progress = answer_all(execute, commands, stream, journal, answers);
    result[..8].copy_from_slice(&progress.answered.to_le_bytes());
    result[8..].copy_from_slice(&progress.read.to_le_bytes());
    progress.end
}

#[derive(Default)]
struct Progress {
    answered: u64,
    read: u64,
    end: u8,
}

fn answer_all(
    execute: Execute,
    commands: &[u8],
    stream: &[u8],
    journal: &mut [u8],
    answers: &mut [u8],
) -> Progress {
    let mut state = open(journal);
    let mut progress = Progress::default();
    let mut room = answers.chunks_exact_mut(ANSWER_BYTES);
    let mut rest = commands;
    while !rest.is_empty() {
        let Some(place) = room.next() else {
            progress.end = Refusal::AnswersFull.number();
            break;
        };
        let answer = execute(&mut state, journal, stream, rest);
        place.copy_from_slice(&answer.to_bytes());
        progress.answered += 1;
        if ends_run(answer.number) {
            progress.end = answer.number;
            break;
        }
        let read = width(rest[0]).expect("a code of the table");
        progress.read += read as u64;
        rest = &rest[read..];
    }
    progress
}

/// By 2 and 3 there is no next command to be found.
fn ends_run(number: u8) -> bool {
    number == Refusal::UnknownCode.number() || number == Refusal::CutShort.number()
}
