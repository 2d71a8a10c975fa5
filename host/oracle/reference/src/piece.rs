//! The piece of a rate curve that an inversion uses (document 02, change 6), which the Rust does not give. Written from document 02 and
//! from the steps of the Rust's `invert_cumulative_hazard`, each rounded once.

use crate::hazard::{Hazard, PIECEWISE};

/// The index of the pair used, the count for the trailing rate; 0 for all other kinds, for w at most 0 and where there is no finite wait.
pub fn piece(hazard: &Hazard, start: f64, w: f64) -> usize {
    if hazard.kind != PIECEWISE || w <= 0.0 {
        return 0;
    }
    let start = if start > 0.0 { start } else { 0.0 };
    let (mut from, mut left) = (start, w);
    for (index, pair) in hazard.used().iter().enumerate() {
        if start >= pair.end {
            continue;
        }
        let added = not_below_zero(pair.rate) * (pair.end - from);
        if pair.rate > 0.0 && left <= added {
            return index;
        }
        left -= added;
        from = pair.end;
    }
    let wait = from + left / not_below_zero(hazard.first) - start;
    if wait.is_finite() {
        hazard.used().len()
    } else {
        0
    }
}

/// A piece as a byte: the smaller of it and 255.
pub fn to_byte(piece: usize) -> u8 {
    u8::try_from(piece).unwrap_or(u8::MAX)
}

/// A rate at most 0 counts as +0.0; over it, a wait is infinite.
fn not_below_zero(rate: f64) -> f64 {
    if rate > 0.0 { rate } else { 0.0 }
}
