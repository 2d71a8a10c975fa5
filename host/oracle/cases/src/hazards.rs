//! Hazards that are accepted, and times and w that fit them.

use crate::floats::{Style, near, positive, signed, time};
use crate::random::Random;
use crate::weibull;
use reference::fields::{LIMIT, size_in_range};
use reference::hazard::{CONSTANT, GOMPERTZ, Hazard, PAIRS, WEIBULL};

pub fn hazard(random: &mut Random, style: Style) -> Hazard {
    match random.below(15) {
        0 => Hazard::default(),
        1..4 => single_rate(random, style, CONSTANT),
        4..6 => single_rate(random, style, GOMPERTZ),
        6..9 => weibull::hazard(random, style),
        _ => {
            let count = random.index(PAIRS + 1);
            piecewise(random, style, count)
        }
    }
}

pub fn single_rate(random: &mut Random, style: Style, kind: u8) -> Hazard {
    Hazard::single_rate(kind, signed(random, style))
}

/// At most `count` pairs: fewer where two of the ends came out equal.
pub fn piecewise(random: &mut Random, style: Style, count: usize) -> Hazard {
    let ends = ends(random, style, count);
    let pairs: Vec<(f64, f64)> = ends
        .iter()
        .map(|end| (*end, signed(random, style)))
        .collect();
    Hazard::piecewise(&pairs, signed(random, style))
}

/// Strictly ascending ends from above 0 to 2^40.
fn ends(random: &mut Random, style: Style, count: usize) -> Vec<f64> {
    let mut ends: Vec<f64> = if style != Style::Wide {
        sums(random, style, count)
    } else if random.chance(30) {
        neighbours(random, count)
    } else {
        (0..count).map(|_| positive(random, style)).collect()
    };
    ends.sort_by(f64::total_cmp);
    ends.dedup();
    ends
}

fn sums(random: &mut Random, style: Style, count: usize) -> Vec<f64> {
    let mut end = 0.0;
    (0..count)
        .map(|_| {
            end += positive(random, style);
            end
        })
        .collect()
}

/// Ends with no float between them.
fn neighbours(random: &mut Random, count: usize) -> Vec<f64> {
    let mut end = positive(random, Style::Wide);
    (0..count)
        .map(|_| {
            end = end.next_up().min(LIMIT);
            end
        })
        .collect()
}

/// A time that an evaluation accepts; often an end or a neighbour of one.
pub fn evaluation_time(random: &mut Random, hazard: &Hazard, style: Style) -> f64 {
    special_time(random, hazard).unwrap_or_else(|| signed(random, style))
}

/// An age that the sampler accepts; often an end or a neighbour of one.
pub fn age(random: &mut Random, hazard: &Hazard, style: Style) -> f64 {
    special_time(random, hazard).unwrap_or_else(|| time(random, style))
}

/// Beside an end, or for kind 4 beside a multiple of the scale.
fn special_time(random: &mut Random, hazard: &Hazard) -> Option<f64> {
    let has_ends = !hazard.used().is_empty();
    if !(has_ends || hazard.kind == WEIBULL) || random.chance(60) {
        return None;
    }
    if !has_ends {
        return Some(weibull::multiple(random, hazard));
    }
    let end = random.pick(hazard.used()).end;
    Some(near(random, end).min(LIMIT))
}

/// A w that the inversion accepts; often just what is left up to an end.
pub fn evaluation_w(random: &mut Random, hazard: &Hazard, start: f64, style: Style) -> f64 {
    if hazard.kind == WEIBULL {
        return weibull::w(random, hazard, start, style);
    }
    if hazard.used().is_empty() || random.chance(60) {
        return signed(random, style);
    }
    let end = random.pick(hazard.used()).end;
    let amount = amount_between(hazard, start, end);
    let w = near(random, amount);
    if size_in_range(w) { w } else { LIMIT }
}

/// What the cumulative hazard grows by from one time to another.
pub fn amount_between(hazard: &Hazard, start: f64, end: f64) -> f64 {
    let rate = hazard.build();
    rate.cumulative_hazard(end) - rate.cumulative_hazard(start)
}
