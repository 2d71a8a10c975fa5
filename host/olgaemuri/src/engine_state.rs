//! What an open engine holds: its clocks with their causes, and the queue.

use crate::choices::{Policy, Tie};
use crate::command::{CLOCKS, Entity, NO_CAUSE};
use crate::engine::Engine;
use crate::hazard::{Hazard, Pair};
use std::cmp::Reverse;

/// A clock that is present in an [`Engine`].
#[derive(Clone, Copy, Debug)]
#[non_exhaustive]
pub struct ClockState<'a> {
    /// Its number.
    pub number: u8,
    /// As given to CREATE.
    pub process: u64,
    /// As given to CREATE.
    pub policy: Policy,
    /// As given to CREATE.
    pub tie: Tie,
    /// Ticks for one unit of time: as given to CREATE, but 1 where that is at most 0.
    pub scale: f64,
    /// As given to CREATE.
    pub entity: Option<Entity>,
    /// Whether it runs: an event was scheduled, and neither a pause nor a delivery came after.
    pub active: bool,
    /// The event that it was last rescheduled to.
    pub winner: Option<Winner>,
    /// The index of its request in the queue.
    pub request: Option<u64>,
    /// The time at which it was last rescheduled, paused or resumed.
    pub last_update: f64,
    engine: &'a Engine,
}

/// The event that a clock was last rescheduled to.
#[derive(Clone, Copy, Debug, PartialEq)]
#[non_exhaustive]
pub struct Winner {
    /// Its cause; [`NO_CAUSE`] where it is censored.
    pub cause: u32,
    /// Its time.
    pub time: f64,
    /// The piece of its cause's rate curve in which it falls, as [`Answer::piece`](crate::Answer::piece) has it.
    pub piece: u8,
}

/// A cause of a clock in an [`Engine`].
#[derive(Clone, Debug, PartialEq)]
#[non_exhaustive]
pub struct CauseState {
    /// Its number.
    pub number: u32,
    /// Its priority in ties.
    pub priority: u32,
    /// Its hazard.
    pub hazard: Hazard,
    /// How much hazard may be used up before its event comes.
    pub threshold: f64,
    /// How much is used up, counted up to the interval's start.
    pub accumulated: f64,
    /// The time from which hazard is not counted yet.
    pub interval_start: f64,
}

/// An event in the queue of an [`Engine`].
#[derive(Clone, Copy, Debug, PartialEq)]
#[non_exhaustive]
pub struct Request {
    /// Its clock.
    pub clock: u8,
    /// Its time in ticks.
    pub ticks: u128,
    /// The priority of the command that scheduled it; among events at the same tick the higher one is delivered first.
    pub priority: i32,
    /// How many events were scheduled before it; decides after ticks and priority.
    pub index: u64,
    /// Its cause; [`NO_CAUSE`] where it is censored.
    pub cause: u32,
    /// Whether it is the end of observation instead of a breakdown.
    pub censored: bool,
    /// The time at which it was scheduled.
    pub scheduled_at: f64,
    /// Its time.
    pub time: f64,
    /// The piece of its cause's rate curve in which it falls, as [`Answer::piece`](crate::Answer::piece) has it.
    pub piece: u8,
}

impl Request {
    /// What decides which event is delivered first: the least of these.
    #[must_use]
    pub fn delivery_order(&self) -> (u128, Reverse<i32>, u64) {
        (self.ticks, Reverse(self.priority), self.index)
    }
}

impl Engine {
    /// The clocks that are present, by ascending number.
    pub fn clocks(&self) -> impl Iterator<Item = ClockState<'_>> {
        (0..CLOCKS as u8).filter_map(|number| self.clock(number))
    }

    /// The clock with this number, where it is present.
    #[must_use]
    pub fn clock(&self, number: u8) -> Option<ClockState<'_>> {
        let fields = olgaemuri_sys::clock(&self.words, &self.floats, usize::from(number));
        let entity = Entity {
            index: fields.entity_index,
            generation: fields.generation,
        };
        let winner = Winner {
            cause: fields.winner_cause,
            time: fields.winner_time,
            piece: fields.winner_piece,
        };
        fields.found.then(|| ClockState {
            number,
            process: fields.process,
            policy: Policy::from_number(fields.policy).expect("the engine's choices"),
            tie: Tie::from_number(fields.tie).expect("the engine's choices"),
            scale: fields.scale,
            entity: fields.has_entity.then_some(entity),
            active: fields.is_active,
            winner: fields.has_winner.then_some(winner),
            request: fields.has_event.then_some(fields.event_index),
            last_update: fields.last_update,
            engine: self,
        })
    }

    /// The queued events in the order in which DELIVER would take them.
    #[must_use]
    pub fn queue(&self) -> Vec<Request> {
        let mut queue: Vec<Request> = self.queue_as_made().collect();
        queue.sort_by_key(Request::delivery_order);
        queue
    }

    /// The queued events in the order in which they were scheduled.
    pub fn queue_as_made(&self) -> impl Iterator<Item = Request> {
        (0..).map_while(|place| self.request(place))
    }

    fn request(&self, place: usize) -> Option<Request> {
        let fields = olgaemuri_sys::request(&self.words, place);
        let number = fields.clock as u8;
        let clock = self.clock(number).filter(|_| fields.found)?;
        let winner = clock.winner?;
        Some(Request {
            clock: number,
            ticks: u128::from(fields.ticks_low) | u128::from(fields.ticks_high) << 64,
            priority: fields.priority,
            index: fields.index,
            cause: winner.cause,
            censored: winner.cause == NO_CAUSE,
            scheduled_at: clock.last_update,
            time: winner.time,
            piece: winner.piece,
        })
    }
}

impl ClockState<'_> {
    /// Its causes by ascending number.
    pub fn causes(&self) -> impl Iterator<Item = CauseState> {
        (0..).map_while(|place| self.cause(place))
    }

    fn cause(&self, place: usize) -> Option<CauseState> {
        let Engine { words, floats, .. } = self.engine;
        let fields = olgaemuri_sys::cause(words, floats, usize::from(self.number), place);
        let pair = |i: usize| Pair {
            end: fields.ends[i],
            rate: fields.rates[i],
        };
        let pairs = std::array::from_fn(pair);
        let hazard = Hazard::from_fields(fields.kind, fields.rate, fields.pairs as u8, &pairs);
        fields.found.then(|| CauseState {
            number: fields.cause,
            priority: fields.priority,
            hazard: hazard.expect("a hazard that was accepted"),
            threshold: fields.threshold,
            accumulated: fields.accumulated,
            interval_start: fields.interval_start,
        })
    }
}
