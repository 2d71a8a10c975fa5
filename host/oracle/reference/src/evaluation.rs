//! The three public evaluations (document 01, "Hazard arithmetic"; kind 4 and the piece from
//! document 02).

use crate::fields::size_in_range;
use crate::hazard::Hazard;
use crate::piece::piece;
use crate::refusal::{Refusal, first_failure};

pub const HAZARD_AT: u8 = 0;
pub const CUMULATIVE_HAZARD: u8 = 1;
pub const INVERT_CUMULATIVE_HAZARD: u8 = 2;

/// By operation number.
pub const OPERATIONS: [&str; 3] = ["hazard_at", "cumulative_hazard", "invert_cumulative_hazard"];

/// The hazard rate at a time.
pub fn hazard_at(hazard: &Hazard, t: f64) -> Result<f64, Refusal> {
    check(hazard, t, 0.0)?;
    Ok(positive_zero(hazard.build().hazard_at(t)))
}

/// The cumulative hazard from 0 to a time.
pub fn cumulative_hazard(hazard: &Hazard, t: f64) -> Result<f64, Refusal> {
    check(hazard, t, 0.0)?;
    Ok(positive_zero(hazard.build().cumulative_hazard(t)))
}

/// How long from `start` until `w` has been added to the cumulative hazard; `None` if never.
pub fn invert_cumulative_hazard(
    hazard: &Hazard,
    start: f64,
    w: f64,
) -> Result<Option<f64>, Refusal> {
    check(hazard, start, w)?;
    Ok(hazard.build().invert_cumulative_hazard(start, w))
}

/// 4, then 5 on hazard, time and w, then 6.
fn check(hazard: &Hazard, t: f64, w: f64) -> Result<(), Refusal> {
    let in_range = hazard.rates_in_range() && size_in_range(t) && size_in_range(w);
    let refused = first_failure(&[
        (hazard.choice_valid(), Refusal::InvalidChoice),
        (in_range, Refusal::OutOfRange),
        (hazard.pairs_valid(), Refusal::InvalidPairs),
    ]);
    refused.map_or(Ok(()), Err)
}

/// Document 01: a negative rate or negative zero counts as +0.0. `f64::max(-0.0, 0.0)` leaves the
/// sign of zero open, so `hazard_at` and the cumulative of Constant may come out as -0.0. This is
/// the only place where a value of the Rust is changed.
fn positive_zero(value: f64) -> f64 {
    if value == 0.0 { 0.0 } else { value }
}

/// An answer in fields: a number (0 or the refusal), whether there is a value, the value, and the
/// piece of an inversion.
#[derive(Clone, Copy, Debug, Default, PartialEq)]
pub struct Evaluation {
    pub number: u8,
    pub found: bool,
    pub value: f64,
    pub piece: u64,
}

impl Evaluation {
    pub fn of(answer: Result<Option<f64>, Refusal>) -> Self {
        match answer {
            Ok(Some(value)) => Self {
                found: true,
                value,
                ..Self::default()
            },
            Ok(None) => Self::default(),
            Err(refusal) => Self {
                number: refusal.number(),
                ..Self::default()
            },
        }
    }

    /// The same answer with the piece of an inversion that is not refused.
    fn inverted(self, hazard: &Hazard, start: f64, w: f64) -> Self {
        let accepted = self.number == 0;
        let piece = if accepted { piece(hazard, start, w) } else { 0 };
        Self {
            piece: piece as u64,
            ..self
        }
    }
}

/// One evaluation by its operation number. `w` is used by the inversion alone.
pub fn evaluate(operation: u8, hazard: &Hazard, t: f64, w: f64) -> Evaluation {
    match operation {
        HAZARD_AT => Evaluation::of(hazard_at(hazard, t).map(Some)),
        CUMULATIVE_HAZARD => Evaluation::of(cumulative_hazard(hazard, t).map(Some)),
        INVERT_CUMULATIVE_HAZARD => {
            Evaluation::of(invert_cumulative_hazard(hazard, t, w)).inverted(hazard, t, w)
        }
        _ => panic!("no such operation: {operation}"),
    }
}
