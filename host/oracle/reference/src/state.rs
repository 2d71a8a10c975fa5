//! The state of an engine and its opening (document 01, "Clocks", "Journal and undo").

use crate::clock::Clock;
use crate::command_fields::CLOCKS;
use crate::refusal::{Refusal, require};
use kairo_ecs_core::Scheduler;

#[derive(Clone, Debug)]
pub struct State {
    pub clocks: [Option<Clock>; CLOCKS],
    /// Request counter and queue.
    pub scheduler: Scheduler,
    /// The draw position.
    pub position: u64,
    /// Document 01's standing length: how many bytes of the journal the applied commands take.
    pub applied_length: u64,
}

/// Opens an engine: nothing exists, and the journal is filled with zero.
pub fn open(journal: &mut [u8]) -> State {
    journal.fill(0);
    State {
        clocks: std::array::from_fn(|_| None),
        scheduler: Scheduler::default(),
        position: 0,
        applied_length: 0,
    }
}

/// The applied commands (document 01's standing commands), as that part of the journal. It looks
/// at the applied length alone.
pub fn applied<'a>(state: &State, journal: &'a [u8]) -> Result<&'a [u8], Refusal> {
    require(
        state.applied_length <= journal.len() as u64,
        Refusal::InvalidState,
    )?;
    Ok(&journal[..state.applied_length as usize])
}
