//! The request ledger (document 01's book): pending events and counts, from commands and answers alone.

use crate::answer::Answer;
use crate::hazard::Piece;
use std::cmp::Reverse;

/// An event that is scheduled and not yet delivered or withdrawn.
#[derive(Clone, Copy, Debug, PartialEq)]
#[non_exhaustive]
pub struct Pending {
    /// The clock that it belongs to.
    pub clock: u8,
    /// Its time in ticks.
    pub ticks: u128,
    /// The priority of the command that scheduled it; among events at the same tick the higher one is delivered first.
    pub priority: i32,
    /// How many events were scheduled before it; decides after ticks and priority.
    pub index: u64,
    /// Its cause; [`NO_CAUSE`](crate::NO_CAUSE) where it is censored.
    pub cause: u32,
    /// Whether it is the end of observation instead of a breakdown.
    pub censored: bool,
    /// The time at which it was scheduled.
    pub scheduled_at: f64,
    /// How long after that it comes.
    pub delta: f64,
    /// The piece of its cause's rate curve in which it falls, as [`Answer::piece`] has it.
    pub piece: u8,
    /// That piece, where the cause's hazard is piecewise constant.
    pub struck: Option<Piece>,
}

impl Pending {
    /// What decides which event is delivered first: the least of these.
    #[must_use]
    pub fn delivery_order(&self) -> (u128, Reverse<i32>, u64) {
        (self.ticks, Reverse(self.priority), self.index)
    }
}

/// The events of one clock: made = withdrawn + delivered + pending.
#[derive(Clone, Copy, Debug, Default, PartialEq)]
#[non_exhaustive]
pub struct Account {
    /// How many were scheduled.
    pub made: u64,
    /// How many were withdrawn before they came.
    pub withdrawn: u64,
    /// How many were delivered.
    pub delivered: u64,
    /// The one that is pending.
    pub pending: Option<Pending>,
}

impl Account {
    /// Takes the pending event out, where the answer says that it was withdrawn.
    pub(crate) fn withdraw(&mut self, answer: &Answer) {
        if answer.withdrawn {
            self.withdrawn += 1;
            self.pending = None;
        }
    }

    /// Puts the answer's event in, where there is one.
    pub(crate) fn make(&mut self, event: Option<Pending>) {
        if let Some(event) = event {
            self.made += 1;
            self.pending = Some(event);
        }
    }

    /// The pending event has come.
    pub(crate) fn deliver(&mut self) {
        self.pending = None;
        self.delivered += 1;
    }
}
