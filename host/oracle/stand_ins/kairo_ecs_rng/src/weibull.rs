//! Hazard kind 4 (document 02, change 4): wear that grows in a straight line, Weibull with shape 2. Written from document 02 alone: each
//! step is rounded once, and the root is the processor's own, which is the f64 nearest to the root.

use crate::competing_risks;

/// A scale at most 0 is Zero.
#[derive(Clone, Copy, Debug, PartialEq)]
pub struct Weibull {
    pub scale: f64,
}

impl Weibull {
    pub fn hazard_at(self, t: f64) -> f64 {
        if self.is_zero() {
            return 0.0;
        }
        (2.0 / self.scale) * self.quotient(t)
    }

    pub fn cumulative_hazard(self, t: f64) -> f64 {
        if self.is_zero() {
            return 0.0;
        }
        let q = self.quotient(t);
        q * q
    }

    /// `None` if never; infinite for an infinite sum.
    pub fn invert_cumulative_hazard(self, start: f64, w: f64) -> Option<f64> {
        if w <= 0.0 {
            return Some(0.0);
        }
        if self.is_zero() {
            return None;
        }
        let wait = self.end(start, w) - from_zero(start);
        Some(from_zero(wait))
    }

    /// The same wait by a hazard that the Rust's own sampler can hold: none up to the end, an infinite one after it. At this age and for
    /// this w the Rust gives end + w / infinity - age, or 0.0 where the age is not below the end.
    pub fn as_pieces(self, age: f64, w: f64) -> competing_risks::HazardRate {
        if self.is_zero() {
            return competing_risks::HazardRate::Zero;
        }
        competing_risks::HazardRate::PiecewiseConstant {
            intervals: vec![(self.end(age, w), 0.0)],
            trailing_rate: f64::INFINITY,
        }
    }

    fn is_zero(self) -> bool {
        self.scale <= 0.0
    }

    fn quotient(self, t: f64) -> f64 {
        from_zero(t) / self.scale
    }

    /// The age at which the cumulative hazard has grown by w since the start.
    fn end(self, start: f64, w: f64) -> f64 {
        let sum = self.cumulative_hazard(start) + w;
        self.scale * sum.sqrt()
    }
}

/// A number at most 0 counts as +0.0.
fn from_zero(value: f64) -> f64 {
    if value <= 0.0 {
        0.0
    } else {
        value
    }
}
