//! The events that the applied commands schedule, and what became of each.

use olgaemuri::{Applied, CLOCKS, Command, Outcome, Pending, Piece};

/// What became of an event.
#[derive(Clone, Copy, Debug, PartialEq)]
pub enum Fate {
    Delivered,
    Pending,
    Withdrawn,
}

impl Fate {
    pub fn word(self) -> &'static str {
        match self {
            Self::Delivered => "delivered",
            Self::Pending => "scheduled",
            Self::Withdrawn => "withdrawn",
        }
    }
}

/// An event of a machine: a breakdown, or the end of observation where it is censored.
#[derive(Clone, Copy, Debug, PartialEq)]
pub struct Event {
    pub machine: u8,
    pub cause: u32,
    pub censored: bool,
    pub scheduled_at: f64,
    pub time: f64,
    pub ticks: u128,
    pub fate: Fate,
    /// Of the command that scheduled it.
    pub priority: i32,
    /// Its place among the deliveries, or among the pending events in the order of delivery.
    pub place: Option<usize>,
    /// The piece of its cause's rate curve in which it falls, where the hazard is piecewise.
    pub struck: Option<Piece>,
}

impl Event {
    /// The number of its piece, which is 0 for a hazard that has no pieces; none for the end of observation.
    pub fn piece(&self) -> Option<u8> {
        let number = self.struck.map_or(0, |piece| piece.number);
        Some(number).filter(|_| !self.censored)
    }
}

/// The events in the order in which they were scheduled. Undone commands have left no trace in it.
pub fn events(outcome: &Outcome) -> Vec<Event> {
    let mut walk = Walk::default();
    for applied in outcome.applied() {
        walk.enter(&applied);
    }
    for (place, pending) in outcome.pending().iter().enumerate() {
        walk.events[pending.index as usize].place = Some(place);
    }
    walk.events
}

/// The breakdowns that a planner plans with: the delivered ones as they came, then the scheduled ones as they are due.
pub fn breakdowns(events: &[Event]) -> Vec<Event> {
    let of = |fate| {
        let events = events.iter().filter(move |event| event.fate == fate);
        let mut events: Vec<Event> = events.copied().collect();
        events.sort_by_key(|event| event.place);
        events
    };
    [of(Fate::Delivered), of(Fate::Pending)].concat()
}

#[derive(Default)]
struct Walk {
    events: Vec<Event>,
    /// For each machine the place of its pending event.
    pending: [Option<usize>; CLOCKS],
    deliveries: usize,
}

impl Walk {
    fn enter(&mut self, applied: &Applied) {
        let machine = usize::from(applied.clock);
        if applied.answer.withdrawn {
            self.end(machine, Fate::Withdrawn);
        }
        match applied.command {
            Command::Deliver => self.deliver(machine),
            Command::Reschedule { now, priority, .. } | Command::Resume { now, priority, .. }
                if applied.answer.event =>
            {
                self.schedule(applied, *now, *priority);
            }
            _ => {}
        }
    }

    /// The pending event of the machine, if any, is pending no more.
    fn end(&mut self, machine: usize, fate: Fate) -> Option<&mut Event> {
        let place = self.pending[machine].take()?;
        self.events[place].fate = fate;
        Some(&mut self.events[place])
    }

    fn deliver(&mut self, machine: usize) {
        let delivery = self.deliveries;
        if let Some(event) = self.end(machine, Fate::Delivered) {
            event.place = Some(delivery);
        }
        self.deliveries += 1;
    }

    fn schedule(&mut self, applied: &Applied, now: f64, priority: i32) {
        let (machine, answer) = (applied.clock, &applied.answer);
        let index = self.events.len();
        self.pending[usize::from(machine)] = Some(index);
        self.events.push(Event {
            machine,
            cause: answer.cause,
            censored: answer.censored,
            scheduled_at: now,
            time: now + answer.delta,
            ticks: answer.ticks,
            fate: Fate::Pending,
            priority,
            place: None,
            struck: applied.struck,
        });
    }
}

impl From<Pending> for Event {
    fn from(pending: Pending) -> Self {
        Self {
            machine: pending.clock,
            cause: pending.cause,
            censored: pending.censored,
            scheduled_at: pending.scheduled_at,
            time: pending.scheduled_at + pending.delta,
            ticks: pending.ticks,
            fate: Fate::Pending,
            priority: pending.priority,
            place: None,
            struck: pending.struck,
        }
    }
}
