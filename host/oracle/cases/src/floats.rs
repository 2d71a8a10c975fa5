//! Floats of each field: ordinary ones, those at the limits, and those that are refused.
//! No logarithm or exponential is used, so the bits are the same on every machine.

use crate::random::Random;
use reference::fields::LIMIT;
use reference::sampler::THRESHOLD_LIMIT;

/// The smallest float above 0.
pub const SMALLEST: f64 = f64::from_bits(1);
pub const LARGEST_SUBNORMAL: f64 = f64::from_bits(0x000F_FFFF_FFFF_FFFF);
const ABOVE_LIMIT: f64 = LIMIT.next_up();

/// Few bits, so that sums, products and waits are often equal.
const SIMPLE: [f64; 10] = [0.125, 0.25, 0.5, 1.0, 1.0, 1.5, 2.0, 3.0, 4.0, 8.0];

const EXTREME: [f64; 9] = [
    SMALLEST,
    f64::from_bits(2),
    LARGEST_SUBNORMAL,
    f64::MIN_POSITIVE,
    f64::EPSILON,
    1.0f64.next_down(),
    LIMIT.next_down().next_down(),
    LIMIT.next_down(),
    LIMIT,
];

/// Refused as a rate, and as the time or w of an evaluation.
const OUT_OF_SIZE: [f64; 9] = [
    f64::NAN,
    f64::from_bits(0xFFF8_0000_0000_0000),
    f64::from_bits(0x7FF0_0000_0000_0001),
    f64::INFINITY,
    f64::NEG_INFINITY,
    ABOVE_LIMIT,
    -ABOVE_LIMIT,
    f64::MAX,
    f64::MIN,
];

/// Refused as an age, a censor age or an end (as an end, 0.0 too).
const NEGATIVE: [f64; 5] = [-0.0, -SMALLEST, -1.0, -0.5, -LIMIT];

/// How the floats of a case are made.
#[derive(Clone, Copy, Debug, PartialEq)]
pub enum Style {
    /// Few bits, moderate size.
    Simple,
    /// All bits, moderate size.
    Moderate,
    /// All sizes, the limits among them.
    Wide,
}

pub fn style(random: &mut Random) -> Style {
    match random.below(10) {
        0..4 => Style::Simple,
        4..7 => Style::Moderate,
        _ => Style::Wide,
    }
}

/// From above 0 to 1, all bits.
fn unit(random: &mut Random) -> f64 {
    ((random.word() >> 11) + 1) as f64 / (1u64 << 53) as f64
}

/// Between two floats above 0, every exponent as likely.
pub fn spread(random: &mut Random, low: f64, high: f64) -> f64 {
    let steps = high.to_bits() - low.to_bits() + 1;
    f64::from_bits(low.to_bits() + random.below(steps))
}

/// Above 0, at most 2^40.
pub fn positive(random: &mut Random, style: Style) -> f64 {
    match style {
        Style::Simple => random.pick(&SIMPLE),
        Style::Moderate => unit(random) * random.pick(&[0.25, 1.0, 4.0, 32.0]),
        Style::Wide => match random.below(3) {
            0 => spread(random, SMALLEST, LIMIT),
            1 => spread(random, 1e-6, 1e6),
            _ => random.pick(&EXTREME),
        },
    }
}

/// A rate, or the time or w of an evaluation, that is accepted; most are above 0.
pub fn signed(random: &mut Random, style: Style) -> f64 {
    match random.below(24) {
        0 => 0.0,
        1 => -0.0,
        2 => -positive(random, style),
        _ => positive(random, style),
    }
}

/// From 0 to 2^40, sign bit clear.
pub fn time(random: &mut Random, style: Style) -> f64 {
    if random.chance(25) {
        0.0
    } else {
        positive(random, style)
    }
}

/// A threshold that is accepted: from -0.0 to 1,024.
pub fn threshold(random: &mut Random, style: Style) -> f64 {
    match random.below(60) {
        0 => 0.0,
        1 => -0.0,
        2 => random.pick(&[THRESHOLD_LIMIT, THRESHOLD_LIMIT.next_down()]),
        _ => positive(random, style).min(THRESHOLD_LIMIT),
    }
}

/// The float itself or a neighbour.
pub fn near(random: &mut Random, value: f64) -> f64 {
    match random.below(4) {
        0 => value.next_up(),
        1 => value.next_down(),
        _ => value,
    }
}

pub fn out_of_size(random: &mut Random) -> f64 {
    random.pick(&OUT_OF_SIZE)
}

pub fn not_a_time(random: &mut Random) -> f64 {
    if random.chance(50) {
        random.pick(&NEGATIVE)
    } else {
        random.pick(&OUT_OF_SIZE)
    }
}

pub fn not_an_end(random: &mut Random) -> f64 {
    if random.chance(20) {
        0.0
    } else {
        not_a_time(random)
    }
}

pub fn not_a_threshold(random: &mut Random) -> f64 {
    match random.below(4) {
        0 => THRESHOLD_LIMIT.next_up(),
        1 => random.pick(&[-SMALLEST, -1.0, LIMIT]),
        _ => random.pick(&OUT_OF_SIZE),
    }
}

/// Not all bits zero; negative zero among them.
pub fn not_zero_bits(random: &mut Random) -> f64 {
    random.pick(&[-0.0, SMALLEST, 1.0, -1.0, f64::NAN, f64::INFINITY, LIMIT])
}
