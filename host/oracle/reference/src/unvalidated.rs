//! The batch run without the work that a run from opening never needs: refusals 1 and 13 cannot come there. No state is validated,
//! and UNDO replays the commands that stay straight from the journal, without a journal of its own and without comparing states.
//! For the benchmark: what a caller of the Rust would write for speed.

use crate::answer::Answer;
use crate::batch::run_with;
use crate::command::Command;
use crate::execute::{append, perform};
use crate::refusal::{Refusal, require};
use crate::state::{State, open};

pub fn run(
    commands: &[u8],
    stream: &[u8],
    journal: &mut [u8],
    answers: &mut [u8],
    result: &mut [u8],
) -> u8 {
    run_with(execute, commands, stream, journal, answers, result)
}

fn execute(state: &mut State, journal: &mut [u8], stream: &[u8], input: &[u8]) -> Answer {
    attempt(state, journal, stream, input).unwrap_or_else(Answer::refused)
}

fn attempt(
    state: &mut State,
    journal: &mut [u8],
    stream: &[u8],
    input: &[u8],
) -> Result<Answer, Refusal> {
    let command = Command::read(input)?;
    if command == Command::Undo {
        return undo(state, journal, stream);
    }
    append(state, journal, stream, &command, input)
}

/// By 12 where nothing is applied.
fn undo(state: &mut State, journal: &mut [u8], stream: &[u8]) -> Result<Answer, Refusal> {
    let applied = state.applied_length as usize;
    require(applied > 0, Refusal::NothingApplied)?;
    let mut before = open(&mut []);
    let mut rest = &journal[..applied];
    let mut command = Command::read(rest)?;
    while command.width() < rest.len() {
        perform(&mut before, journal.len(), stream, &command)?;
        rest = &rest[command.width()..];
        command = Command::read(rest)?;
    }
    journal[before.applied_length as usize..applied].fill(0);
    *state = before;
    Ok(Answer::default())
}
