//! Hazards of kind 4 (document 02, change 4), with times, w and thresholds at which a rounding decides.

use crate::floats::{Style, near, positive, signed, spread};
use crate::radicands::{near_halfway, near_short_square};
use crate::random::Random;
use reference::fields::{LIMIT, size_in_range};
use reference::hazard::{Hazard, SMALLEST_SCALE, WEIBULL};

/// Not exact as quotients of small numbers, so that each step is rounded.
const ROUNDED_SCALES: [f64; 6] = [3.0, 1.0 / 3.0, 0.7, 5.0, 7.0, 49.0];

const END_SCALES: [f64; 4] = [
    SMALLEST_SCALE,
    SMALLEST_SCALE.next_up(),
    LIMIT.next_down(),
    LIMIT,
];

/// These are Zero.
const ZERO_SCALES: [f64; 5] = [0.0, -0.0, -1.0, -SMALLEST_SCALE, -LIMIT];

pub fn hazard(random: &mut Random, style: Style) -> Hazard {
    Hazard::single_rate(WEIBULL, scale(random, style))
}

/// A scale that is accepted; most are above 0.
fn scale(random: &mut Random, style: Style) -> f64 {
    match random.below(24) {
        0 | 1 => random.pick(&ZERO_SCALES),
        2..6 => random.pick(&ROUNDED_SCALES),
        6 | 7 => random.pick(&END_SCALES),
        _ if style == Style::Wide => spread(random, SMALLEST_SCALE, LIMIT),
        _ => positive(random, style).max(SMALLEST_SCALE),
    }
}

/// A small multiple of the scale or a neighbour of one: the cumulative hazard there is about a whole number.
pub fn multiple(random: &mut Random, hazard: &Hazard) -> f64 {
    let multiple = hazard.first.abs() * (1 + random.below(20)) as f64;
    near(random, multiple).abs().min(LIMIT)
}

/// A w that the inversion accepts: any, what is left up to a later time, one that is nearly lost in the sum, so that the wait may come out
/// below 0, or one whose root is hard to round.
pub fn w(random: &mut Random, hazard: &Hazard, start: f64, style: Style) -> f64 {
    let cumulative = |t: f64| hazard.build().cumulative_hazard(t);
    let at_start = cumulative(start);
    let chosen = match random.below(10) {
        0..3 => signed(random, style),
        3..5 => {
            let later = cumulative(start + positive(random, style));
            near(random, later - at_start)
        }
        5..8 => (at_start.next_up() - at_start) * eighths(random),
        8 => near_short_square(random, -7),
        _ => near_halfway(random, f64::MIN_POSITIVE, LIMIT.sqrt()),
    };
    if size_in_range(chosen) { chosen } else { LIMIT }
}

/// From 1/8 to 3/2.
fn eighths(random: &mut Random) -> f64 {
    (1 + random.below(12)) as f64 / 8.0
}

/// The kind 4 that uses up a threshold after about this wait from age 0; exactly so where the threshold has a root. `None` where its scale
/// would be refused.
pub fn with_wait(threshold: f64, wait: f64) -> Option<Hazard> {
    let hazard = Hazard::single_rate(WEIBULL, wait / threshold.sqrt());
    hazard.rates_in_range().then_some(hazard)
}
