//! The engine's answer to one command, from its 40 bytes and back (document 01, "Answer"; the piece is change 6 of document 02).

use crate::fields::{Reader, Writer};
use crate::refusal::Refusal;
use std::fmt;

/// Bytes of one answer.
pub const ANSWER_BYTES: usize = olgaemuri_sys::ANSWER_BYTES;

/// What the engine says to one command. What does not apply is false or zero; a refusal has nothing else.
#[derive(Clone, Copy, Debug, Default, PartialEq)]
#[non_exhaustive]
pub struct Answer {
    /// Why the command was refused, if it was. Then nothing has changed.
    pub refusal: Option<Refusal>,
    /// Whether an event was scheduled (RESCHEDULE, RESUME) or delivered (DELIVER).
    pub event: bool,
    /// Whether that event is the end of observation instead of a breakdown. Its cause is [`NO_CAUSE`](crate::NO_CAUSE).
    pub censored: bool,
    /// Whether a pending event was withdrawn.
    pub withdrawn: bool,
    /// The event's cause.
    pub cause: u32,
    /// How long after the command's time the event comes. For DELIVER, after the time at which it was scheduled.
    pub delta: f64,
    /// The event's time in ticks.
    pub ticks: u128,
    /// The piece of its cause's rate curve in which the event falls. For [`Hazard::PiecewiseConstant`] it is the place of the pair
    /// used, counted from 0, or the number of pairs where it is the rate after the last; [`Hazard::pieces`] has them in this order.
    /// It is 0 for other hazards, for a cause whose threshold is used up already, and for a censored event.
    ///
    /// [`Hazard::PiecewiseConstant`]: crate::Hazard::PiecewiseConstant
    /// [`Hazard::pieces`]: crate::Hazard::pieces
    pub piece: u8,
}

/// Bytes behind the piece. They are zero.
const REST: [u8; 7] = [0; 7];

impl Answer {
    /// A refusal.
    pub(crate) fn refused(refusal: Refusal) -> Self {
        Self {
            refusal: Some(refusal),
            ..Self::default()
        }
    }

    /// Whether the command was accepted.
    #[must_use]
    pub fn is_accepted(&self) -> bool {
        self.refusal.is_none()
    }

    /// The refusal's number, or 0.
    #[must_use]
    pub fn number(&self) -> u8 {
        self.refusal.map_or(0, Refusal::number)
    }

    /// The answer's bytes.
    #[must_use]
    pub fn to_bytes(&self) -> [u8; ANSWER_BYTES] {
        let mut out = Writer::default();
        out.u8(self.number())
            .u8(u8::from(self.event))
            .u8(u8::from(self.censored))
            .u8(u8::from(self.withdrawn))
            .u32(self.cause)
            .f64(self.delta)
            .bytes(&self.ticks.to_le_bytes())
            .u8(self.piece)
            .bytes(&REST);
        out.0.try_into().expect("the fields are as long")
    }

    /// The answer with these bytes; none where the number is above 18, a flag is neither 0 nor 1, or a byte behind the piece is not 0.
    #[must_use]
    pub fn from_bytes(bytes: &[u8; ANSWER_BYTES]) -> Option<Self> {
        let mut fields = Reader(bytes);
        let refusal = match fields.u8() {
            0 => None,
            number => Some(
                Refusal::from_number(number)
                    .filter(|refusal| *refusal <= Refusal::InvalidBuffers)?,
            ),
        };
        let answer = Self {
            refusal,
            event: flag(fields.u8())?,
            censored: flag(fields.u8())?,
            withdrawn: flag(fields.u8())?,
            cause: fields.u32(),
            delta: fields.f64(),
            ticks: u128::from(fields.u64()) | u128::from(fields.u64()) << 64,
            piece: fields.u8(),
        };
        (fields.0 == REST).then_some(answer)
    }
}

/// `accepted`, with what was withdrawn and what was scheduled or delivered, the piece where it is not 0; or the refusal.
impl fmt::Display for Answer {
    fn fmt(&self, f: &mut fmt::Formatter) -> fmt::Result {
        if let Some(refusal) = self.refusal {
            return refusal.fmt(f);
        }
        f.write_str(if self.withdrawn {
            "accepted, withdrawn"
        } else {
            "accepted"
        })?;
        match (self.event, self.censored) {
            (false, _) => return Ok(()),
            (true, true) => write!(f, ", censored")?,
            (true, false) => write!(f, ", cause {}", self.cause)?,
        }
        write!(f, " after {} at tick {}", self.delta, self.ticks)?;
        match self.piece {
            0 => Ok(()),
            piece => write!(f, " in piece {piece}"),
        }
    }
}

fn flag(byte: u8) -> Option<bool> {
    match byte {
        0 => Some(false),
        1 => Some(true),
        _ => None,
    }
}
