//! What the applied commands and their answers tell of the clocks, command by command and back.

use crate::answer::Answer;
use crate::choices::{Policy, Tie};
use crate::command::{Command, Entity};
use crate::hazard::Hazard;
use crate::ledger::{Account, Pending};
use std::mem::replace;

/// A cause of a clock, as it was last set.
#[derive(Clone, Debug, PartialEq)]
#[non_exhaustive]
pub struct Cause {
    /// Its number.
    pub number: u32,
    /// Its priority in ties.
    pub priority: u32,
    /// Its hazard.
    pub hazard: Hazard,
    /// When it was set.
    pub set_at: f64,
}

/// A clock that is present. Thresholds, and how much of them is used up, an [`Engine`](crate::Engine) tells.
#[derive(Clone, Debug, PartialEq)]
#[non_exhaustive]
pub struct Clock {
    /// Its number.
    pub number: u8,
    /// As given to CREATE.
    pub process: u64,
    /// As given to CREATE.
    pub policy: Policy,
    /// As given to CREATE.
    pub tie: Tie,
    /// Ticks for one unit of time: as given to CREATE, but 1 where that is at most 0.
    pub scale: f64,
    /// As given to CREATE.
    pub entity: Option<Entity>,
    /// Its causes by ascending number.
    pub causes: Vec<Cause>,
    /// Whether it runs: an event was scheduled, and neither a pause nor a delivery came after.
    pub active: bool,
    /// How many events it had, and the one that is pending.
    pub events: Account,
}

impl Clock {
    /// The clock that an accepted CREATE makes; none for another command.
    pub(crate) fn created(command: &Command) -> Option<Self> {
        let Command::Create {
            clock,
            process,
            policy,
            tie,
            scale,
            entity,
        } = command
        else {
            return None;
        };
        Some(Self {
            number: *clock,
            process: *process,
            policy: *policy,
            tie: *tie,
            scale: if *scale <= 0.0 { 1.0 } else { *scale },
            entity: *entity,
            causes: Vec::new(),
            active: false,
            events: Account::default(),
        })
    }

    /// Follows an accepted command on this clock, and returns what it changes. So many events were scheduled before, of all clocks.
    fn follow(&mut self, command: &Command, answer: &Answer, made: u64) -> Change {
        match command {
            Command::Set {
                cause,
                priority,
                hazard,
                now,
                ..
            } => self.put(Cause {
                number: *cause,
                priority: *priority,
                hazard: hazard.clone(),
                set_at: *now,
            }),
            Command::Remove { cause, .. } => Change::Cause(*cause, self.take(*cause)),
            _ => {
                let (active, before) = (self.active, self.events);
                self.reschedule(command, answer, made);
                Change::Schedule(active, Moved::between(&before, &self.events))
            }
        }
    }

    fn reschedule(&mut self, command: &Command, answer: &Answer, made: u64) {
        self.events.withdraw(answer);
        match command {
            Command::Reschedule { now, priority, .. } | Command::Resume { now, priority, .. } => {
                self.active |= answer.event;
                let event = self.pending(answer, *now, *priority, made);
                self.events.make(event);
            }
            Command::Pause { .. } => self.active = false,
            Command::Deliver => {
                self.active = false;
                self.events.deliver();
            }
            _ => {}
        }
    }

    /// The event that an answer schedules.
    fn pending(&self, answer: &Answer, now: f64, priority: i32, index: u64) -> Option<Pending> {
        let cause = self
            .causes
            .iter()
            .find(|cause| cause.number == answer.cause);
        let struck = cause.and_then(|cause| cause.hazard.pieces().nth(usize::from(answer.piece)));
        answer.event.then_some(Pending {
            clock: self.number,
            ticks: answer.ticks,
            priority,
            index,
            cause: answer.cause,
            censored: answer.censored,
            scheduled_at: now,
            delta: answer.delta,
            piece: answer.piece,
            struck,
        })
    }

    /// Puts a cause in its place.
    fn put(&mut self, cause: Cause) -> Change {
        let number = cause.number;
        let place = self.causes.partition_point(|other| other.number < number);
        let there = self.causes.get_mut(place);
        let before = match there.filter(|other| other.number == number) {
            Some(there) => Some(Box::new(replace(there, cause))),
            None => {
                self.causes.insert(place, cause);
                None
            }
        };
        Change::Cause(number, before)
    }

    /// Takes a cause out, where it is there.
    fn take(&mut self, number: u32) -> Option<Box<Cause>> {
        let place = self.causes.iter().position(|other| other.number == number);
        place.map(|place| Box::new(self.causes.remove(place)))
    }
}

/// What an applied command has changed: a part of a clock as it was before.
#[derive(Clone, Debug, PartialEq)]
pub(crate) struct Before {
    pub clock: u8,
    change: Change,
}

impl Before {
    /// The event that was pending, where the command was one about events.
    pub fn pending(&self) -> Option<&Pending> {
        match &self.change {
            Change::Schedule(_, moved) => moved.pending.as_deref(),
            Change::Absent | Change::Cause(..) => None,
        }
    }
}

#[derive(Clone, Debug, PartialEq)]
enum Change {
    /// There was no clock.
    Absent,
    /// A cause, and how it was where it was there.
    Cause(u32, Option<Box<Cause>>),
    /// Whether it ran, and what became of its events.
    Schedule(bool, Moved),
}

/// What a command did to a clock's events: which counts went up by one, and the event that was pending.
#[derive(Clone, Debug, PartialEq)]
struct Moved {
    made: bool,
    withdrawn: bool,
    delivered: bool,
    pending: Option<Box<Pending>>,
}

impl Moved {
    fn between(before: &Account, after: &Account) -> Self {
        Self {
            made: before.made < after.made,
            withdrawn: before.withdrawn < after.withdrawn,
            delivered: before.delivered < after.delivered,
            pending: before.pending.map(Box::new),
        }
    }

    /// The events as they were.
    fn back(self, after: &Account) -> Account {
        Account {
            made: after.made - u64::from(self.made),
            withdrawn: after.withdrawn - u64::from(self.withdrawn),
            delivered: after.delivered - u64::from(self.delivered),
            pending: self.pending.map(|pending| *pending),
        }
    }
}

/// Enters an accepted command other than UNDO with its answer. Returns what it changes, as it was.
pub(crate) fn enter(clocks: &mut Vec<Clock>, command: &Command, answer: &Answer) -> Before {
    let number = command.clock().unwrap_or_else(|| next_delivered(clocks));
    let place = clocks.partition_point(|clock| clock.number < number);
    let change = match Clock::created(command) {
        Some(clock) => {
            clocks.insert(place, clock);
            Change::Absent
        }
        None => {
            let made = clocks.iter().map(|clock| clock.events.made).sum();
            clocks[place].follow(command, answer, made)
        }
    };
    Before {
        clock: number,
        change,
    }
}

/// Restores what a command changed.
pub(crate) fn revert(clocks: &mut Vec<Clock>, before: Before) {
    let place = clocks.partition_point(|clock| clock.number < before.clock);
    match before.change {
        Change::Absent => {
            clocks.remove(place);
        }
        Change::Cause(_, Some(cause)) => {
            clocks[place].put(*cause);
        }
        Change::Cause(number, None) => {
            clocks[place].take(number);
        }
        Change::Schedule(active, moved) => {
            let clock = &mut clocks[place];
            (clock.active, clock.events) = (active, moved.back(&clock.events));
        }
    }
}

/// The clock of the pending event that a DELIVER takes.
fn next_delivered(clocks: &[Clock]) -> u8 {
    let pending = clocks.iter().filter_map(|clock| clock.events.pending);
    let next = pending.min_by_key(Pending::delivery_order);
    next.expect("DELIVER is accepted only while an event is pending")
        .clock
}
