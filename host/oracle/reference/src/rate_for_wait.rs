//! The constant rate that uses up a threshold after a given wait (document 02, change 11), in whole numbers: no float is divided and
//! nothing is searched for.
//!
//! A positive f64 is a whole number times a power of two. The quotients that round to a wait lie between two such numbers, so the rates
//! that give it lie between the threshold over the one and over the other; the smallest f64 there comes by one division rounded up.

use crate::fields::LIMIT;
use crate::sampler::THRESHOLD_LIMIT;

/// The threshold or the wait is outside its limits.
pub const OUTSIDE_LIMITS: u8 = 23;
/// No rate gives the wait.
pub const NO_RATE: u8 = 24;

/// 2^-40. The longest wait and the largest rate are 2^40, `LIMIT`.
pub const SHORTEST_WAIT: f64 = f64::from_bits((1023 - 40) << FRACTION_BITS);

const FRACTION_BITS: u32 = 52;
/// The digits of an f64 that is a power of two and not subnormal.
const LEAST_DIGITS: u128 = 1 << FRACTION_BITS;
/// Subnormal floats are multiples of 2^-1074.
const LEAST_POWER: i32 = -1074;

/// Number 0 and the rate, or 23 or 24 and +0.0.
#[derive(Clone, Copy, Debug, PartialEq)]
pub struct RateForWait {
    pub number: u8,
    pub rate: f64,
}

impl RateForWait {
    fn without_rate(number: u8) -> Self {
        Self { number, rate: 0.0 }
    }
}

/// The smallest positive f64 rate, at most 2^40, for which threshold / rate rounds to exactly the wait.
pub fn rate_for_wait(threshold: f64, wait: f64) -> RateForWait {
    if !within_limits(threshold, wait) {
        return RateForWait::without_rate(OUTSIDE_LIMITS);
    }
    match smallest_rate(&Scaled::of(threshold), &Scaled::of(wait)) {
        Some(rate) if rate <= LIMIT => RateForWait { number: 0, rate },
        _ => RateForWait::without_rate(NO_RATE),
    }
}

/// A threshold above 0 and at most 1,024, a wait from 2^-40 to 2^40. NaN is not within.
fn within_limits(threshold: f64, wait: f64) -> bool {
    threshold > 0.0 && threshold <= THRESHOLD_LIMIT && (SHORTEST_WAIT..=LIMIT).contains(&wait)
}

/// digits * 2^power
struct Scaled {
    digits: u128,
    power: i32,
}

impl Scaled {
    /// A positive, finite float, with 53 digits unless it is subnormal.
    fn of(value: f64) -> Self {
        let exponent = (value.to_bits() >> FRACTION_BITS) as i32;
        let fraction = u128::from(value.to_bits()) % LEAST_DIGITS;
        match exponent {
            0 => Self {
                digits: fraction,
                power: LEAST_POWER,
            },
            _ => Self {
                digits: LEAST_DIGITS + fraction,
                power: LEAST_POWER + exponent - 1,
            },
        }
    }

    /// The float with this value: from 2^52 to 2^53 digits, or fewer with the least power.
    fn to_float(&self) -> f64 {
        let exponent = (self.power - LEAST_POWER) as u64;
        f64::from_bits((exponent << FRACTION_BITS) + self.digits as u64)
    }
}

/// The quotients that round to a wait, in quarters of its last place.
struct Quotients {
    least: u128,
    most: u128,
    /// Halfway between two floats rounding goes to the even one: both ends round to an even wait and neither to an odd one. It shows in
    /// no answer: each end has 54 binary digits, the last of them 1, and no quotient of two floats is such a number.
    with_ends: bool,
}

impl Quotients {
    /// Of a wait with these digits, which is not subnormal. Below a power of two floats lie half as far apart as above it.
    fn rounding_to(digits: u128) -> Self {
        let below = if digits == LEAST_DIGITS { 1 } else { 2 };
        Self {
            least: 4 * digits - below,
            most: 4 * digits + 2,
            with_ends: digits.is_multiple_of(2),
        }
    }

    /// The smallest whole number by which this one can be divided so that the quotient is not above these.
    fn smallest_divisor(&self, dividend: u128) -> u128 {
        if self.with_ends {
            dividend.div_ceil(self.most)
        } else {
            dividend / self.most + 1
        }
    }

    /// The quotient of the two is not below these.
    fn reached_by(&self, dividend: u128, divisor: u128) -> bool {
        let least = self.least * divisor;
        dividend > least || (self.with_ends && dividend == least)
    }
}

/// The smallest f64 of any size that gives the wait.
fn smallest_rate(threshold: &Scaled, wait: &Scaled) -> Option<f64> {
    let quotients = Quotients::rounding_to(wait.digits);
    let shift = shift(threshold, wait, &quotients);
    let dividend = threshold.digits << shift;
    let rate = Scaled {
        digits: quotients.smallest_divisor(dividend),
        power: threshold.power - (wait.power - 2) - shift as i32,
    };
    let given = quotients.reached_by(dividend, rate.digits);
    given.then(|| rate.to_float())
}

/// By how much the threshold's digits are shifted so that the quotient has those of an f64: 53, or fewer where a last place of 2^-1074 is
/// reached. Dividend and products stay below 2^109.
fn shift(threshold: &Scaled, wait: &Scaled, quotients: &Quotients) -> u32 {
    let full = quotients.most << FRACTION_BITS;
    let level = full.ilog2() - threshold.digits.ilog2();
    let shorter = threshold.digits << level < full;
    let to_least_power = threshold.power - (wait.power - 2) - LEAST_POWER;
    (level + u32::from(shorter)).min(to_least_power as u32)
}
