//! Typed commands (document 01, "A command comes in"). Their bytes are in command_bytes.rs.

use crate::choices::{Policy, Tie};
use crate::hazard::Hazard;

/// How many clocks an engine has; their numbers are 0 to 15.
pub const CLOCKS: usize = 16;

/// The cause of a censored event. No cause that is set may have this number.
pub const NO_CAUSE: u32 = u32::MAX;

/// Whom a clock belongs to in the simulator.
#[derive(Clone, Copy, Debug, PartialEq, Eq, Hash)]
pub struct Entity {
    /// The entity's place.
    pub index: u64,
    /// How often that place was used before.
    pub generation: u32,
}

/// A command. Values that the engine refuses can be expressed too, and are refused by it.
///
/// [`Display`](std::fmt::Display) writes it as it stands in a session in text.
#[derive(Clone, Debug, PartialEq)]
#[non_exhaustive]
pub enum Command {
    /// Makes a clock.
    Create {
        /// The clock's number, 0 to 15.
        clock: u8,
        /// The process that it belongs to; the engine only keeps it.
        process: u64,
        /// What SET does with a threshold that is partly used up.
        policy: Policy,
        /// Which of two causes at the same time wins.
        tie: Tie,
        /// Ticks for one unit of time; at most 0 counts as 1.
        scale: f64,
        /// The entity that it belongs to, if any; the engine only keeps it.
        entity: Option<Entity>,
    },
    /// Adds a cause to a clock or changes its hazard.
    Set {
        /// The clock's number.
        clock: u8,
        /// The cause's number.
        cause: u32,
        /// Decides between causes at the same time under [`Tie::ExplicitPriority`]; the higher one wins.
        priority: u32,
        /// The hazard from now on.
        hazard: Hazard,
        /// The time of the change.
        now: f64,
    },
    /// Takes a cause off a clock. A cause that is absent may be removed too.
    Remove {
        /// The clock's number.
        clock: u8,
        /// The cause's number.
        cause: u32,
    },
    /// Finds the clock's earliest event from now on and schedules it in place of one that was pending. Nothing counts as used up
    /// since the last SET, PAUSE or RESUME; to have it counted, give PAUSE and RESUME at the present time instead.
    Reschedule {
        /// The clock's number.
        clock: u8,
        /// The present time.
        now: f64,
        /// The time at which observation ends, if any: an event after it is scheduled as censored.
        censor: Option<f64>,
        /// Decides between events at the same tick; the higher one is delivered first.
        priority: i32,
    },
    /// Stops a clock: its event is withdrawn, and what was used up of the thresholds is counted.
    Pause {
        /// The clock's number.
        clock: u8,
        /// The present time.
        now: f64,
    },
    /// Goes on after a pause, as [`Command::Reschedule`] does.
    Resume {
        /// The clock's number.
        clock: u8,
        /// The present time.
        now: f64,
        /// The time at which observation ends, if any.
        censor: Option<f64>,
        /// Decides between events at the same tick; the higher one is delivered first.
        priority: i32,
    },
    /// Takes the earliest pending event out of the queue; its clock stops. The thresholds stay: a SET gives the cause its next one.
    Deliver,
    /// Reverts the last applied command.
    Undo,
}

impl Command {
    /// The command's name in document 01.
    #[must_use]
    pub fn name(&self) -> &'static str {
        self.names().0
    }

    /// The word that begins its line in a session in text.
    #[must_use]
    pub fn word(&self) -> &'static str {
        self.names().1
    }

    fn names(&self) -> (&'static str, &'static str) {
        match self {
            Self::Create { .. } => ("CREATE", "create"),
            Self::Set { .. } => ("SET", "set"),
            Self::Remove { .. } => ("REMOVE", "remove"),
            Self::Reschedule { .. } => ("RESCHEDULE", "reschedule"),
            Self::Pause { .. } => ("PAUSE", "pause"),
            Self::Resume { .. } => ("RESUME", "resume"),
            Self::Deliver => ("DELIVER", "deliver"),
            Self::Undo => ("UNDO", "undo"),
        }
    }

    /// The cause that the command names. SET and REMOVE name one.
    #[must_use]
    pub fn cause(&self) -> Option<u32> {
        match self {
            Self::Set { cause, .. } | Self::Remove { cause, .. } => Some(*cause),
            _ => None,
        }
    }

    /// The clock that the command names. DELIVER and UNDO name none.
    #[must_use]
    pub fn clock(&self) -> Option<u8> {
        match self {
            Self::Create { clock, .. }
            | Self::Set { clock, .. }
            | Self::Remove { clock, .. }
            | Self::Reschedule { clock, .. }
            | Self::Pause { clock, .. }
            | Self::Resume { clock, .. } => Some(*clock),
            Self::Deliver | Self::Undo => None,
        }
    }

    /// The time that the command is given at. CREATE, REMOVE, DELIVER and UNDO have none.
    #[must_use]
    pub fn now(&self) -> Option<f64> {
        match self {
            Self::Set { now, .. }
            | Self::Reschedule { now, .. }
            | Self::Pause { now, .. }
            | Self::Resume { now, .. } => Some(*now),
            Self::Create { .. } | Self::Remove { .. } | Self::Deliver | Self::Undo => None,
        }
    }
}
