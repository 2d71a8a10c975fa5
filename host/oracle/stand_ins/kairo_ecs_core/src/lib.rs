//! Stand-in for the crate `kairo_ecs_core`: the scheduler that hazard_clock.rs names, with the
//! meaning that document 01 ("Queue and ticks") and change 2 of document 02 give it.

#![forbid(unsafe_code)]

use kairo_ecs_types::{EventId, ScheduleRequest};
use std::cmp::Reverse;

/// A request in the queue.
#[derive(Clone, Copy, Debug, PartialEq)]
pub struct Queued {
    /// The clock that made the request.
    pub clock: u8,
    pub id: EventId,
    pub request: ScheduleRequest,
}

impl Queued {
    /// The order of delivery: fewest ticks, higher priority number, lower index.
    pub fn order(&self) -> (u128, Reverse<i32>, u64) {
        (
            self.request.at.ticks(),
            Reverse(self.request.priority),
            self.id.index,
        )
    }
}

#[derive(Clone, Debug, Default)]
pub struct Scheduler {
    /// How many requests were made so far: the index of the next one.
    pub requests_made: u64,
    pub queue: Vec<Queued>,
    /// The clock that the scheduler is lent to. No field of document 01's state.
    borrower: u8,
}

impl Scheduler {
    /// An empty queue after that many requests.
    pub fn new(requests_made: u64) -> Self {
        Self {
            requests_made,
            ..Self::default()
        }
    }

    /// Names the clock that makes the next requests.
    pub fn lent_to(&mut self, clock: u8) -> &mut Self {
        self.borrower = clock;
        self
    }

    pub fn schedule(&mut self, request: ScheduleRequest) -> EventId {
        let id = EventId::new(self.requests_made, 0);
        self.requests_made += 1;
        self.queue.push(Queued {
            clock: self.borrower,
            id,
            request,
        });
        id
    }

    /// Takes the request out of the queue; whether it was there.
    pub fn cancel(&mut self, id: EventId) -> bool {
        let found = self.queue.iter().position(|queued| queued.id == id);
        found.map(|at| self.queue.remove(at)).is_some()
    }

    pub fn find(&self, id: EventId) -> Option<&Queued> {
        self.queue.iter().find(|queued| queued.id == id)
    }

    /// The request that is delivered next.
    pub fn next(&self) -> Option<&Queued> {
        self.queue.iter().min_by_key(|queued| queued.order())
    }

    /// Takes the request that is delivered next out of the queue.
    pub fn deliver(&mut self) -> Option<Queued> {
        let next = self.next().copied()?;
        self.cancel(next.id);
        Some(next)
    }
}
