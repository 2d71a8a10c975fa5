//! UNDO (document 01, "Journal and undo"): the state that the other applied commands give from
//! opening, and zero over the bytes of the last one.

use crate::answer::Answer;
use crate::command::Command;
use crate::dump::same_state;
use crate::execute::execute;
use crate::refusal::{Refusal, require};
use crate::state::{State, applied, open};

/// By 12 where nothing is applied, by 13 where the applied commands do not give the present state.
pub fn undo(state: &mut State, journal: &mut [u8], stream: &[u8]) -> Result<Answer, Refusal> {
    let commands = split(applied(state, journal)?)?;
    let (last, others) = commands.split_last().ok_or(Refusal::NothingApplied)?;
    let width = last.len();
    let mut replay = Replay::open(journal.len());
    replay.give(others, stream)?;
    let before = replay.state.clone();
    replay.give(&[last], stream)?;
    require(same_state(&replay.state, state), Refusal::NotReplayable)?;
    journal[before.applied_length as usize..][..width].fill(0);
    *state = before;
    Ok(Answer::default())
}

/// The commands one by one, if they are whole and none of them is an UNDO.
fn split(mut bytes: &[u8]) -> Result<Vec<&[u8]>, Refusal> {
    let mut commands = Vec::new();
    while !bytes.is_empty() {
        let command = Command::read(bytes).map_err(|_| Refusal::NotReplayable)?;
        require(command != Command::Undo, Refusal::NotReplayable)?;
        let (command, rest) = bytes.split_at(command.width());
        commands.push(command);
        bytes = rest;
    }
    Ok(commands)
}

/// A newly opened engine with a journal of its own.
struct Replay {
    state: State,
    journal: Vec<u8>,
}

impl Replay {
    fn open(length: usize) -> Self {
        let mut journal = vec![0; length];
        let state = open(&mut journal);
        Self { state, journal }
    }

    /// Each of the commands has to be accepted.
    fn give(&mut self, commands: &[&[u8]], stream: &[u8]) -> Result<(), Refusal> {
        commands.iter().try_for_each(|command| {
            let answer = execute(&mut self.state, &mut self.journal, stream, command);
            require(answer.number == 0, Refusal::NotReplayable)
        })
    }
}
