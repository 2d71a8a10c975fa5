//! One command given to an engine: document 01's command door, with its refusals in the table's
//! order.

use crate::answer::Answer;
use crate::clock::{self, Clock};
use crate::command::Command;
use crate::command_fields::field_refusal;
use crate::refusal::{Refusal, require};
use crate::state::State;
use crate::undo::undo;
use crate::validation::validate;
use kairo_ecs_rng::DeterministicStream;

/// Answers or refuses any bytes. A refusal changes nothing.
pub fn execute(state: &mut State, journal: &mut [u8], stream: &[u8], input: &[u8]) -> Answer {
    attempt(state, journal, stream, input).unwrap_or_else(Answer::refused)
}

fn attempt(
    state: &mut State,
    journal: &mut [u8],
    stream: &[u8],
    input: &[u8],
) -> Result<Answer, Refusal> {
    let thresholds = DeterministicStream::new(stream, 0).len();
    validate(state, thresholds, journal.len())?;
    let command = Command::read(input)?;
    if command == Command::Undo {
        return undo(state, journal, stream);
    }
    append(state, journal, stream, &command, input)
}

/// Performs a command but UNDO on a valid state and copies its bytes into the free part of the journal.
pub fn append(
    state: &mut State,
    journal: &mut [u8],
    stream: &[u8],
    command: &Command,
    input: &[u8],
) -> Result<Answer, Refusal> {
    let start = state.applied_length as usize;
    let answer = perform(state, journal.len(), stream, command)?;
    let bytes = &input[..command.width()];
    journal[start..][..bytes.len()].copy_from_slice(bytes);
    Ok(answer)
}

/// What a command but UNDO does to a valid state, its applied length among it, and its refusals from 4 on.
/// The journal's bytes are left to the caller.
pub fn perform(
    state: &mut State,
    journal_length: usize,
    stream: &[u8],
    command: &Command,
) -> Result<Answer, Refusal> {
    let mut draws = DeterministicStream::new(stream, state.position);
    field_refusal(command).map_or(Ok(()), Err)?;
    clock_refusal(state, command)?;
    queue_refusal(state, command)?;
    journal_refusal(state, journal_length, command)?;
    draw_refusal(state, &draws, command)?;
    let answer = apply(state, &mut draws, command);
    state.position = draws.position();
    state.applied_length += command.width() as u64;
    Ok(answer)
}

/// By 8, 9 or 10.
fn clock_refusal(state: &State, command: &Command) -> Result<(), Refusal> {
    let Some(name) = command.clock() else {
        return Ok(());
    };
    let present = state.clocks[usize::from(name)].as_ref();
    match (command, present) {
        (Command::Create(_), None) => Ok(()),
        (Command::Create(_), Some(_)) => Err(Refusal::ClockPresent),
        (_, None) => Err(Refusal::ClockAbsent),
        (Command::Set(set), Some(clock)) => clock::cause_refusal(clock, set),
        (_, Some(_)) => Ok(()),
    }
}

/// By 11.
fn queue_refusal(state: &State, command: &Command) -> Result<(), Refusal> {
    let empty = state.scheduler.queue.is_empty();
    require(*command != Command::Deliver || !empty, Refusal::QueueEmpty)
}

/// By 14.
fn journal_refusal(state: &State, journal_length: usize, command: &Command) -> Result<(), Refusal> {
    let free = journal_length as u64 - state.applied_length;
    require(command.width() as u64 <= free, Refusal::JournalFull)
}

/// By 15 or 16.
fn draw_refusal(
    state: &State,
    draws: &DeterministicStream,
    command: &Command,
) -> Result<(), Refusal> {
    match command {
        Command::Set(set) => clock::set_refusal(present(state, set.clock), set, draws),
        _ => Ok(()),
    }
}

/// What an accepted command does to clocks, queue and draw position.
fn apply(state: &mut State, draws: &mut DeterministicStream, command: &Command) -> Answer {
    if let Command::Create(create) = command {
        state.clocks[usize::from(create.clock)] = Some(clock::create(create));
        return Answer::default();
    }
    if *command == Command::Deliver {
        return deliver(state);
    }
    let name = usize::from(command.clock().expect("a clock is named"));
    let clock = state.clocks[name]
        .as_mut()
        .expect("a clock that is present");
    clock::apply(clock, &mut state.scheduler, draws, command)
}

fn deliver(state: &mut State) -> Answer {
    let request = state.scheduler.deliver().expect("a request in the queue");
    let owner = &mut state.clocks[usize::from(request.clock)];
    clock::deliver(owner.as_mut().expect("a clock that is present"), &request)
}

fn present(state: &State, name: u8) -> &Clock {
    let clock = state.clocks[usize::from(name)].as_ref();
    clock.expect("a clock that is present")
}
