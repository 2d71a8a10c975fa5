//! Pairs of a threshold and a wait (document 02, change 11): what they cover, and their answers held to the processor's own division.

use cases::floats::SMALLEST;
use cases::lists;
use cases::random::Random;
use cases::rate_pairs::{self, RatePair};
use cases::rate_tally::RateTally;
use reference::fields::LIMIT;
use reference::rate_for_wait::{NO_RATE, OUTSIDE_LIMITS};

const SEED: u64 = 0x6469_7669_7369_6F6E;
const RANDOM_PAIRS: usize = 1_000_000;
/// Bit patterns to each side of threshold / wait.
const BESIDE: u64 = 8;

#[test]
fn every_sort_is_among_the_pairs() {
    let listed = RateTally::of(&lists::rates());
    assert!(listed.least().0 >= 4, "{listed}");
    let drawn = RateTally::of(&random_pairs(100_000));
    assert!(drawn.least().0 >= 50, "{drawn}");
}

/// A tally without pairs has a sort with none, and one pair is of some sorts alone.
#[test]
fn sorts_that_are_missing() {
    assert_eq!(RateTally::default().least().0, 0);
    let all_of_one: Vec<RatePair> = vec![rate_pairs::chosen()[0]; 3];
    assert_eq!(RateTally::of(&all_of_one).least().0, 0);
}

fn random_pairs(count: usize) -> Vec<RatePair> {
    let mut random = Random::new(SEED);
    (0..count).map(|_| RatePair::random(&mut random)).collect()
}

#[test]
fn by_the_processors_division() {
    for pair in rate_pairs::chosen() {
        held_to_division(&pair);
    }
    random_pairs(RANDOM_PAIRS).iter().for_each(held_to_division);
}

fn held_to_division(pair: &RatePair) {
    let answer = pair.expected();
    let holds = match answer.number {
        0 => is_smallest(pair, answer.rate),
        NO_RATE => answer.rate.to_bits() == 0 && has_no_rate(pair),
        OUTSIDE_LIMITS => answer.rate.to_bits() == 0 && is_outside(pair),
        _ => false,
    };
    assert!(holds, "{pair:?}: {answer:?}");
}

/// The rate gives the wait and the f64 below it does not.
fn is_smallest(pair: &RatePair, rate: f64) -> bool {
    let gives = |rate: f64| pair.threshold / rate == pair.wait;
    rate > 0.0 && rate <= LIMIT && gives(rate) && !gives(rate.next_down()) && !is_outside(pair)
}

/// No rate beside threshold / wait gives the wait, nor do the ends; and the wait lies between their quotients, which never grow as the
/// rate grows, unless the range of rates ends there.
fn has_no_rate(pair: &RatePair) -> bool {
    let (smallest, largest) = (SMALLEST.to_bits(), LIMIT.to_bits());
    let middle = (pair.threshold / pair.wait).to_bits();
    let low = middle.saturating_sub(BESIDE).clamp(smallest, largest);
    let high = (middle + BESIDE).clamp(smallest, largest);
    let quotient = |bits: u64| pair.threshold / f64::from_bits(bits);
    let given = (low..=high)
        .chain([smallest, largest])
        .any(|bits| quotient(bits) == pair.wait);
    let passed_below = low == smallest || quotient(low) > pair.wait;
    let passed_above = high == largest || quotient(high) < pair.wait;
    !given && passed_below && passed_above && !is_outside(pair)
}

/// Document 02: "a threshold w above 0 and at most 1,024 and a wait T from 2^-40 to 2^40".
fn is_outside(pair: &RatePair) -> bool {
    let threshold_fits = 0.0 < pair.threshold && pair.threshold <= 1024.0;
    let wait_fits = 1.0 <= pair.wait * LIMIT && pair.wait <= LIMIT;
    !(threshold_fits && wait_fits)
}
