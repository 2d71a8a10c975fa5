//! The answer of 40 bytes (document 01, "Answer"; document 02, change 6).

use crate::refusal::Refusal;
use crate::request::CENSORED_CAUSE;
use kairo_ecs_rng::RealizedEvent;

pub const ANSWER_BYTES: usize = 40;

/// What does not apply is zero.
#[derive(Clone, Copy, Debug, Default, PartialEq)]
pub struct Answer {
    pub number: u8,
    pub event: bool,
    pub censored: bool,
    pub withdrawn: bool,
    pub cause: u32,
    pub delta: f64,
    pub ticks_low: u64,
    pub ticks_high: u64,
    /// Of an uncensored event.
    pub piece: u8,
}

impl Answer {
    pub fn refused(refusal: Refusal) -> Self {
        Self {
            number: refusal.number(),
            ..Self::default()
        }
    }

    /// Nothing withdrawn, no ticks: the sampler's whole answer. A censored event has no piece.
    pub fn sampled(event: Option<RealizedEvent>, piece: u8) -> Self {
        event.map_or_else(Self::default, |event| Self {
            event: true,
            censored: event.is_censored,
            cause: event.winning_cause.0,
            delta: event.delta_time,
            piece: if event.is_censored { 0 } else { piece },
            ..Self::default()
        })
    }

    /// An event of a cause after a wait, with piece 0; of the censored cause, a censored one.
    pub fn event(cause: u32, delta: f64) -> Self {
        Self {
            event: true,
            censored: cause == CENSORED_CAUSE,
            cause,
            delta,
            ..Self::default()
        }
    }

    /// The same answer with a piece.
    pub fn with_piece(self, piece: u8) -> Self {
        Self { piece, ..self }
    }

    /// The same answer with ticks as low and high u64.
    pub fn with_ticks(self, ticks: u128) -> Self {
        Self {
            ticks_low: ticks as u64,
            ticks_high: (ticks >> 64) as u64,
            ..self
        }
    }

    pub fn ticks(&self) -> u128 {
        u128::from(self.ticks_high) << 64 | u128::from(self.ticks_low)
    }

    pub fn to_bytes(&self) -> [u8; ANSWER_BYTES] {
        let mut out = [0; ANSWER_BYTES];
        out[0] = self.number;
        out[1] = u8::from(self.event);
        out[2] = u8::from(self.censored);
        out[3] = u8::from(self.withdrawn);
        out[4..8].copy_from_slice(&self.cause.to_le_bytes());
        out[8..16].copy_from_slice(&self.delta.to_le_bytes());
        out[16..24].copy_from_slice(&self.ticks_low.to_le_bytes());
        out[24..32].copy_from_slice(&self.ticks_high.to_le_bytes());
        out[32] = self.piece;
        out
    }
}
