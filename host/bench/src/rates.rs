//! `rate_for_wait` of the Rattle library beside the model in whole numbers (document 02, change 11), up to the first difference.

use crate::probe;
use cases::random::Random;
use cases::rate_pairs::{self, RatePair};
use cases::rate_tally::RateTally;
use cases::words::float;
use reference::rate_for_wait::RateForWait;

/// What stands in the place for the rate before a call, so that a rate left out is seen.
const HELD: f64 = -7.0;

/// The chosen pairs, then as many random ones as asked for: how many were chosen, and what the random ones are.
pub fn run(seed: u64, count: u64) -> Result<(usize, RateTally), String> {
    let chosen = rate_pairs::chosen();
    for (pair, place) in chosen.iter().zip(1..) {
        compare(pair).map_err(|sides| parted(seed, place, &sides))?;
    }
    let mut random = Random::new(seed);
    let mut tally = RateTally::default();
    for place in (chosen.len() as u64 + 1..).take(count as usize) {
        let pair = RatePair::random(&mut random);
        let answer = compare(&pair).map_err(|sides| parted(seed, place, &sides))?;
        tally.add(&pair, &answer);
    }
    match tally.least() {
        (0, sort) => Err(format!(
            "seed {seed}: of {count} random pairs there is none {sort}"
        )),
        _ => Ok((chosen.len(), tally)),
    }
}

/// What both sides answer, bit for bit: the function as a program calls it, and over a place that holds another number.
fn compare(pair: &RatePair) -> Result<RateForWait, String> {
    let model = pair.expected();
    let (threshold, wait) = (pair.threshold, pair.wait);
    let calls = [
        olgaemuri_sys::rate_for_wait(threshold, wait),
        probe::rate_for_wait(threshold, wait, HELD),
    ];
    let bits = |(number, rate): (u8, f64)| (number, rate.to_bits());
    let expected = (model.number, model.rate);
    if calls.iter().all(|call| bits(*call) == bits(expected)) {
        return Ok(model);
    }
    let [safe, raw] = calls.map(described);
    Err(format!(
        "threshold {}, wait {}\nmodel   {}\nRattle  {safe}; where {HELD} stood: {raw}",
        float(threshold),
        float(wait),
        described(expected)
    ))
}

fn described((number, rate): (u8, f64)) -> String {
    format!("number {number}, rate {}", float(rate))
}

fn parted(seed: u64, place: u64, sides: &str) -> String {
    format!("seed {seed}, pair {place}: the sides part\n{sides}")
}
