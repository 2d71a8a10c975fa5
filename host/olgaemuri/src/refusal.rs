//! Refusals and their numbers (document 01, the table under "A command comes in"; 17 and 18 from "Run call and sampler"; 23 and 24 from
//! document 02, change 11).

use std::error::Error;
use std::fmt;

/// Why a command, a run or a rate was refused. The discriminant is document 01's number; 23 and 24 are document 02's.
#[derive(Clone, Copy, Debug, PartialEq, Eq, PartialOrd, Ord, Hash)]
#[repr(u8)]
#[non_exhaustive]
pub enum Refusal {
    /// 1: the state is not valid. It never comes in a run or of an [`Engine`](crate::Engine), which begin with an opened one.
    InvalidState = 1,
    /// 2: no command has this code. It ends a run.
    UnknownCode = 2,
    /// 3: fewer bytes than the command's width. It ends a run.
    CutShort = 3,
    /// 4: policy, tie, kind or a has-byte is off its list, or an unused entity, censor or rate is not zero.
    InvalidChoice = 4,
    /// 5: a time is not from +0.0 to 2^40, a rate or scale is not finite or above 2^40 in size, or a Weibull scale is above 0 and
    /// below 2^-40.
    OutOfRange = 5,
    /// 6: more than eight pairs, pairs where none are used, or ends that are not above 0, at most 2^40 and strictly ascending.
    InvalidPairs = 6,
    /// 7: the clock is above 15, or the cause is [`NO_CAUSE`](crate::NO_CAUSE).
    InvalidName = 7,
    /// 8: CREATE of a clock that is present.
    ClockPresent = 8,
    /// 9: another command on a clock that is absent.
    ClockAbsent = 9,
    /// 10: SET of a ninth cause.
    TooManyCauses = 10,
    /// 11: DELIVER while no event is pending.
    QueueEmpty = 11,
    /// 12: UNDO while no command is applied.
    NothingApplied = 12,
    /// 13: the applied commands do not give the present state. It never comes in a run or of an [`Engine`](crate::Engine).
    NotReplayable = 13,
    /// 14: the command is longer than the free part of the journal.
    JournalFull = 14,
    /// 15: a draw is due and the recorded thresholds are used up.
    StreamExhausted = 15,
    /// 16: the threshold due is not finite, below 0 or above 1,024.
    InvalidThreshold = 16,
    /// 17: under 40 answer bytes are left for a command. A [`Session`](crate::Session) never gives too few.
    AnswersFull = 17,
    /// 18: the stream is no multiple of 8 bytes or the result not 16. A [`Session`](crate::Session) never gives such buffers.
    InvalidBuffers = 18,
    /// 23: the threshold is not above 0 and at most 1,024, or the wait is not from 2^-40 to 2^40. Only
    /// [`rate_for_wait`](crate::rate_for_wait) refuses by it.
    OutsideLimits = 23,
    /// 24: no rate above 0 and at most 2^40 gives exactly the wait. Only [`rate_for_wait`](crate::rate_for_wait) refuses by it.
    NoRate = 24,
}

impl Refusal {
    /// All refusals, by ascending number.
    pub const ALL: [Self; 20] = [
        Self::InvalidState,
        Self::UnknownCode,
        Self::CutShort,
        Self::InvalidChoice,
        Self::OutOfRange,
        Self::InvalidPairs,
        Self::InvalidName,
        Self::ClockPresent,
        Self::ClockAbsent,
        Self::TooManyCauses,
        Self::QueueEmpty,
        Self::NothingApplied,
        Self::NotReplayable,
        Self::JournalFull,
        Self::StreamExhausted,
        Self::InvalidThreshold,
        Self::AnswersFull,
        Self::InvalidBuffers,
        Self::OutsideLimits,
        Self::NoRate,
    ];

    /// The refusal with this number: 1 to 18, 23 or 24. 0 means that nothing was refused.
    #[must_use]
    pub fn from_number(number: u8) -> Option<Self> {
        Self::ALL
            .into_iter()
            .find(|refusal| refusal.number() == number)
    }

    /// Whether a run ends where an input is refused by it.
    pub(crate) fn ends_a_run(self) -> bool {
        matches!(self, Self::UnknownCode | Self::CutShort)
    }

    /// Its number.
    #[must_use]
    pub fn number(self) -> u8 {
        self as u8
    }

    /// What was wrong, in words for the person who asked.
    #[must_use]
    pub fn meaning(self) -> &'static str {
        match self {
            Self::InvalidState => "the state is not valid",
            Self::UnknownCode => "no command has this code",
            Self::CutShort => "the command is cut short",
            Self::InvalidChoice => "a choice is off its list, or an unused field is not zero",
            Self::OutOfRange => {
                "a time is not from +0.0 to 2^40, a rate or scale is not finite or above 2^40 in size, or a Weibull scale is above 0 \
                 and below 2^-40"
            }
            Self::InvalidPairs => {
                "the pairs are not valid: at most eight, with ends above 0 that ascend"
            }
            Self::InvalidName => {
                "the clock's number is above 15, or the cause is the one kept for censored events"
            }
            Self::ClockPresent => "the clock is there already",
            Self::ClockAbsent => "the clock has not been created",
            Self::TooManyCauses => "the clock has eight causes already",
            Self::QueueEmpty => "no event is pending",
            Self::NothingApplied => "there is no command to undo",
            Self::NotReplayable => "the applied commands do not give the present state",
            Self::JournalFull => "the journal has no room for the command",
            Self::StreamExhausted => "a threshold is to be drawn and all recorded ones are used up",
            Self::InvalidThreshold => {
                "the recorded threshold due is not finite, below 0 or above 1024"
            }
            Self::AnswersFull => "there is no room for another answer",
            Self::InvalidBuffers => "the buffers do not have the lengths asked for",
            Self::OutsideLimits => {
                "the threshold is not above 0 and at most 1024, or the wait is not from 2^-40 to 2^40"
            }
            Self::NoRate => "no rate above 0 and at most 2^40 gives exactly the wait",
        }
    }
}

impl fmt::Display for Refusal {
    fn fmt(&self, out: &mut fmt::Formatter<'_>) -> fmt::Result {
        write!(out, "refused by {}: {}", self.number(), self.meaning())
    }
}

impl Error for Refusal {}
