//! A threshold and a wait for `rate_for_wait` (document 02, change 11), and the expected answer: a case of 25 bytes.

use crate::floats::{LARGEST_SUBNORMAL, SMALLEST, Style, near, out_of_size, positive, spread};
use crate::random::Random;
use reference::fields::LIMIT;
use reference::rate_for_wait::{RateForWait, SHORTEST_WAIT, rate_for_wait};
use reference::sampler::THRESHOLD_LIMIT;

pub const CASE_BYTES: usize = 25;

/// 2^-982: with a threshold below it some wait takes a subnormal rate.
const SUBNORMAL_RATES_BELOW: f64 = f64::MIN_POSITIVE * LIMIT;

const END_THRESHOLDS: [f64; 8] = [
    SMALLEST,
    f64::from_bits(2),
    LARGEST_SUBNORMAL,
    f64::MIN_POSITIVE,
    SUBNORMAL_RATES_BELOW,
    1.0,
    THRESHOLD_LIMIT.next_down(),
    THRESHOLD_LIMIT,
];

const END_WAITS: [f64; 4] = [
    SHORTEST_WAIT,
    SHORTEST_WAIT.next_up(),
    LIMIT.next_down(),
    LIMIT,
];

const THRESHOLDS_OUTSIDE: [f64; 5] = [0.0, -0.0, -SMALLEST, -1.0, THRESHOLD_LIMIT.next_up()];

const WAITS_OUTSIDE: [f64; 7] = [
    0.0,
    -0.0,
    SMALLEST,
    SHORTEST_WAIT.next_down(),
    LIMIT.next_up(),
    -1.0,
    -SHORTEST_WAIT,
];

#[derive(Clone, Copy, Debug)]
pub struct RatePair {
    pub threshold: f64,
    pub wait: f64,
}

impl RatePair {
    /// Nine in ten are within the limits.
    pub fn random(random: &mut Random) -> Self {
        let make = match random.below(20) {
            0..2 => anywhere,
            2..5 => moderate,
            5..9 => with_a_rate,
            9..12 => with_a_subnormal_rate,
            12..14 => near_a_power_of_two,
            14..16 => near_the_largest_rate,
            16..18 => at_the_ends,
            _ => outside,
        };
        let (threshold, wait) = make(random);
        Self { threshold, wait }
    }

    pub fn expected(&self) -> RateForWait {
        rate_for_wait(self.threshold, self.wait)
    }

    pub fn encode(&self, out: &mut Vec<u8>) {
        let expected = self.expected();
        out.extend(self.threshold.to_le_bytes());
        out.extend(self.wait.to_le_bytes());
        out.push(expected.number);
        out.extend(expected.rate.to_le_bytes());
    }
}

/// Every exponent as likely, subnormal thresholds among them.
fn anywhere(random: &mut Random) -> (f64, f64) {
    let threshold = spread(random, SMALLEST, THRESHOLD_LIMIT);
    (threshold, any_wait(random))
}

fn any_wait(random: &mut Random) -> f64 {
    spread(random, SHORTEST_WAIT, LIMIT)
}

/// Sizes as they are used, with few digits or with all.
fn moderate(random: &mut Random) -> (f64, f64) {
    let style = random.pick(&[Style::Simple, Style::Moderate]);
    let threshold = positive(random, style);
    let wait = match random.below(4) {
        0 => (1 + random.below(1000)) as f64,
        1 => spread(random, 1e-6, 1e6),
        _ => positive(random, style),
    };
    (threshold, wait)
}

/// The wait that some rate gives.
fn with_a_rate(random: &mut Random) -> (f64, f64) {
    let (threshold, wait) = if random.chance(50) {
        anywhere(random)
    } else {
        moderate(random)
    };
    let rate = near(random, threshold / wait).clamp(SMALLEST, LIMIT);
    (threshold, threshold / rate)
}

/// Small thresholds: with any wait, or with about the one that a subnormal rate gives. Many of these rates have few digits.
fn with_a_subnormal_rate(random: &mut Random) -> (f64, f64) {
    if random.chance(30) {
        let threshold = spread(random, SMALLEST, SUBNORMAL_RATES_BELOW);
        return (threshold, any_wait(random));
    }
    let most = random.pick(&[
        f64::from_bits(3),
        f64::from_bits(1 << 10),
        LARGEST_SUBNORMAL,
    ]);
    let rate = spread(random, SMALLEST, most);
    let wait = match random.below(2) {
        0 => (1 + random.below(1000)) as f64,
        _ => any_wait(random),
    };
    let threshold = (rate * wait).max(SMALLEST);
    (threshold, near(random, threshold / rate))
}

/// A power of two or a neighbour for a wait, where floats change their distance; half of the thresholds are near a rate times it.
fn near_a_power_of_two(random: &mut Random) -> (f64, f64) {
    let power = f64::from_bits(SHORTEST_WAIT.to_bits() + (random.below(81) << 52));
    let threshold = if random.chance(50) {
        spread(random, SMALLEST, THRESHOLD_LIMIT)
    } else {
        let most = (THRESHOLD_LIMIT / power).min(LIMIT);
        let product = power * spread(random, SMALLEST, most);
        near(random, product.max(SMALLEST))
    };
    (threshold, near(random, power))
}

/// About the wait that 2^40 or a neighbour gives.
fn near_the_largest_rate(random: &mut Random) -> (f64, f64) {
    let rate = near(random, LIMIT);
    let threshold = if random.chance(25) {
        near(random, 1.0)
    } else {
        spread(random, 1.0, THRESHOLD_LIMIT)
    };
    let wait = threshold / rate;
    (threshold, near(random, wait))
}

/// A threshold or a wait, or both, at an end of its range or beside it.
fn at_the_ends(random: &mut Random) -> (f64, f64) {
    let (mut threshold, mut wait) = anywhere(random);
    let which = random.below(3);
    if which != 0 {
        threshold = random.pick(&END_THRESHOLDS);
    }
    if which != 1 {
        wait = random.pick(&END_WAITS);
    }
    (threshold, wait)
}

/// One or both outside the limits; any bits among them.
fn outside(random: &mut Random) -> (f64, f64) {
    let (mut threshold, mut wait) = moderate(random);
    let which = random.below(4);
    if which == 3 {
        return (f64::from_bits(random.word()), f64::from_bits(random.word()));
    }
    if which != 0 {
        threshold = off_limits(random, &THRESHOLDS_OUTSIDE);
    }
    if which != 1 {
        wait = off_limits(random, &WAITS_OUTSIDE);
    }
    (threshold, wait)
}

fn off_limits(random: &mut Random, values: &[f64]) -> f64 {
    if random.chance(60) {
        random.pick(values)
    } else {
        out_of_size(random)
    }
}

/// Worked pairs, and every threshold at or beside an end with every such wait.
pub fn chosen() -> Vec<RatePair> {
    let below = (2.0 * f64::MIN_POSITIVE).next_down();
    let worked = [
        (2.0, 4.0),
        (1.0, 5.0),
        (1.0, 49.0),
        (1e-323, 2.0),
        (5e-324, 2.0),
        (below, 2.0),
        (below, 4.0f64.next_down()),
        (1024.0, SHORTEST_WAIT),
        (1024.0, 1024.0 * SHORTEST_WAIT),
        (1.0, SHORTEST_WAIT),
        (1.0f64.next_down(), SHORTEST_WAIT),
        (1.0f64.next_up(), SHORTEST_WAIT),
        (1.0f64.next_up(), SHORTEST_WAIT.next_up()),
        (f64::NAN, 4.0),
        (2.0, f64::NAN),
        (f64::INFINITY, 4.0),
        (2.0, f64::INFINITY),
        (f64::NEG_INFINITY, 4.0),
        (2.0, f64::NEG_INFINITY),
    ];
    let thresholds = [END_THRESHOLDS.as_slice(), &THRESHOLDS_OUTSIDE].concat();
    let waits = [END_WAITS.as_slice(), &WAITS_OUTSIDE, &[1.0]].concat();
    let ends = thresholds
        .iter()
        .flat_map(|threshold| waits.iter().map(|wait| (*threshold, *wait)));
    let pairs = worked.into_iter().chain(ends);
    let pair = |(threshold, wait)| RatePair { threshold, wait };
    pairs.map(pair).collect()
}
