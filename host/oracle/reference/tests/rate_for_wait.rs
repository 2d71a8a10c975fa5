//! Document 02, change 11: worked answers, the limits and what lies just beyond them.

use reference::fields::LIMIT;
use reference::rate_for_wait::{NO_RATE, OUTSIDE_LIMITS, SHORTEST_WAIT, rate_for_wait};
use reference::sampler::THRESHOLD_LIMIT;

const SMALLEST: f64 = f64::from_bits(1);

fn given(threshold: f64, wait: f64, rate: f64) {
    let answer = rate_for_wait(threshold, wait);
    assert_eq!(answer.number, 0, "{threshold:?}, {wait:?}");
    assert_eq!(answer.rate, rate, "{threshold:?}, {wait:?}");
    assert_eq!(threshold / rate, wait);
    assert_ne!(threshold / rate.next_down(), wait);
}

fn none(number: u8, threshold: f64, wait: f64) {
    let answer = rate_for_wait(threshold, wait);
    assert_eq!(answer.number, number, "{threshold:?}, {wait:?}");
    assert_eq!(answer.rate.to_bits(), 0, "{threshold:?}, {wait:?}");
}

#[test]
fn shortest_wait() {
    assert_eq!(SHORTEST_WAIT * LIMIT, 1.0);
}

#[test]
fn worked_rates() {
    given(2.0, 4.0, 0.5);
    given(1.0, 5.0, 0.19999999999999998);
    given(1.0, 1.0, 1.0);
    given(1.0, 3.0, 1.0 / 3.0);
    given(1e-323, 2.0, 5e-324);
    given(f64::MIN_POSITIVE, 2.0, f64::MIN_POSITIVE / 2.0);
}

/// No float lies between the two ends, or the only ones do not give the wait.
#[test]
fn no_rate() {
    none(NO_RATE, 1.0, 49.0);
    none(NO_RATE, 5e-324, 2.0);
    none(NO_RATE, 5e-324, 1.0f64.next_up());
    none(NO_RATE, 5e-324, LIMIT);
    // the largest below 2^-1021: the quotients are the two neighbours of 2
    let below = (2.0 * f64::MIN_POSITIVE).next_down();
    none(NO_RATE, below, 2.0);
    let half = f64::MIN_POSITIVE / 2.0;
    assert_eq!(below / f64::MIN_POSITIVE, 2.0f64.next_down());
    assert_eq!(below / f64::MIN_POSITIVE.next_down(), 2.0f64.next_up());
    given(below, 4.0f64.next_down(), half);
}

#[test]
fn largest_rate() {
    given(1.0, SHORTEST_WAIT, LIMIT);
    given(1.0f64.next_down(), SHORTEST_WAIT, LIMIT.next_down());
    // 1 + 2^-52 over 2^40 is above 2^-40 by a last place
    none(NO_RATE, 1.0f64.next_up(), SHORTEST_WAIT);
    given(1.0f64.next_up(), SHORTEST_WAIT.next_up(), LIMIT);
    given(1024.0, 1024.0 * SHORTEST_WAIT, LIMIT);
    none(NO_RATE, 1024.0, SHORTEST_WAIT);
    none(NO_RATE, 1024.0, (1024.0 * SHORTEST_WAIT).next_down());
}

/// Each limit is within, with a rate for it, and its neighbour beyond is not.
#[test]
fn limits() {
    given(THRESHOLD_LIMIT, 1.0, THRESHOLD_LIMIT);
    none(OUTSIDE_LIMITS, THRESHOLD_LIMIT.next_up(), 1.0);
    given(SMALLEST, 1.0, SMALLEST);
    none(OUTSIDE_LIMITS, 0.0, 1.0);
    given(SHORTEST_WAIT, SHORTEST_WAIT, 1.0);
    none(OUTSIDE_LIMITS, SHORTEST_WAIT, SHORTEST_WAIT.next_down());
    given(1.0, LIMIT, SHORTEST_WAIT);
    none(OUTSIDE_LIMITS, 1.0, LIMIT.next_up());
    given(SMALLEST, SHORTEST_WAIT, LIMIT * SMALLEST);
}

#[test]
fn outside_the_limits() {
    let neither = [
        -0.0,
        0.0,
        -SMALLEST,
        -1.0,
        -THRESHOLD_LIMIT,
        f64::MAX,
        f64::MIN,
        f64::INFINITY,
        f64::NEG_INFINITY,
        f64::NAN,
        -f64::NAN,
        f64::from_bits(0x7FF0_0000_0000_0001),
    ];
    for value in neither {
        none(OUTSIDE_LIMITS, value, 4.0);
        none(OUTSIDE_LIMITS, 2.0, value);
        none(OUTSIDE_LIMITS, value, value);
    }
    none(OUTSIDE_LIMITS, 2.0, SMALLEST);
    none(OUTSIDE_LIMITS, LIMIT, 4.0);
    none(OUTSIDE_LIMITS, LIMIT.next_up(), LIMIT.next_up());
}
