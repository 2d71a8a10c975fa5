//! How many pairs of a threshold and a wait are of each sort, by their answers.

use crate::floats::SMALLEST;
use crate::rate_pairs::RatePair;
use reference::fields::LIMIT;
use reference::rate_for_wait::{
    NO_RATE, OUTSIDE_LIMITS, RateForWait, SHORTEST_WAIT, rate_for_wait,
};
use reference::sampler::THRESHOLD_LIMIT;
use std::fmt::{Display, Formatter, Result};

/// The number of the answer, a name, and what else holds of the pair and its rate.
type Sort = (u8, &'static str, fn(&RatePair, f64) -> bool);

const SORTS: [Sort; 18] = [
    (0, "answered by 0", |_, _| true),
    (0, "with a subnormal rate", |_, rate| {
        rate < f64::MIN_POSITIVE
    }),
    (
        0,
        "with a rate that is not the f64 nearest to threshold / wait",
        |pair, rate| rate != nearest(pair),
    ),
    (0, "with rate 2^40", |_, rate| rate == LIMIT),
    (0, "with rate 2^-1074", |_, rate| rate == SMALLEST),
    (0, "with a wait that is a power of two", |pair, _| {
        pair.wait.to_bits().trailing_zeros() >= 52
    }),
    (0, "with wait 2^-40", |pair, _| pair.wait == SHORTEST_WAIT),
    (0, "with wait 2^40", |pair, _| pair.wait == LIMIT),
    (0, "with threshold 1,024", |pair, _| {
        pair.threshold == THRESHOLD_LIMIT
    }),
    (0, "with threshold 2^-1074", |pair, _| {
        pair.threshold == SMALLEST
    }),
    (NO_RATE, "answered by 24", |_, _| true),
    (NO_RATE, "with threshold / wait above 2^40", |pair, _| {
        nearest(pair) > LIMIT
    }),
    (
        NO_RATE,
        "with threshold / wait subnormal or 0",
        |pair, _| nearest(pair) < f64::MIN_POSITIVE,
    ),
    (NO_RATE, "with threshold / wait between these", |pair, _| {
        (f64::MIN_POSITIVE..=LIMIT).contains(&nearest(pair))
    }),
    (OUTSIDE_LIMITS, "answered by 23", |_, _| true),
    (OUTSIDE_LIMITS, "for the threshold alone", |pair, _| {
        wait_fits(pair)
    }),
    (OUTSIDE_LIMITS, "for the wait alone", |pair, _| {
        threshold_fits(pair)
    }),
    (OUTSIDE_LIMITS, "for both", |pair, _| {
        !threshold_fits(pair) && !wait_fits(pair)
    }),
];

/// The f64 nearest to threshold / wait, as the processor divides.
fn nearest(pair: &RatePair) -> f64 {
    pair.threshold / pair.wait
}

fn threshold_fits(pair: &RatePair) -> bool {
    rate_for_wait(pair.threshold, 1.0).number != OUTSIDE_LIMITS
}

fn wait_fits(pair: &RatePair) -> bool {
    rate_for_wait(1.0, pair.wait).number != OUTSIDE_LIMITS
}

/// A count for each sort.
#[derive(Default)]
pub struct RateTally([u64; SORTS.len()]);

impl RateTally {
    pub fn of(pairs: &[RatePair]) -> Self {
        let mut tally = Self::default();
        for pair in pairs {
            tally.add(pair, &pair.expected());
        }
        tally
    }

    pub fn add(&mut self, pair: &RatePair, answer: &RateForWait) {
        for (count, (number, _, also)) in self.0.iter_mut().zip(SORTS) {
            *count += u64::from(answer.number == number && also(pair, answer.rate));
        }
    }

    /// The least count, with the sort that has it.
    pub fn least(&self) -> (u64, &'static str) {
        let counts = self.0.iter().zip(SORTS);
        let least = counts.min_by_key(|(count, _)| **count);
        least.map_or((0, ""), |(count, (_, name, _))| (*count, name))
    }
}

impl Display for RateTally {
    fn fmt(&self, f: &mut Formatter<'_>) -> Result {
        let mut before = SORTS[0].0;
        for (place, (count, (number, name, _))) in self.0.iter().zip(SORTS).enumerate() {
            let mark = match place {
                0 => "",
                _ if number != before => "; ",
                _ => ", ",
            };
            write!(f, "{mark}{count} {name}")?;
            before = number;
        }
        Ok(())
    }
}
