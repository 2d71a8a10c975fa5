//! Refusals 4, 5 and 6 of the evaluations, their order, and what is accepted at the limits.

use reference::evaluation::{
    Evaluation, HAZARD_AT, INVERT_CUMULATIVE_HAZARD, evaluate, hazard_at, invert_cumulative_hazard,
};
use reference::fields::LIMIT;
use reference::hazard::{CONSTANT, GOMPERTZ, Hazard, PIECEWISE, WEIBULL, ZERO};
use reference::refusal::Refusal;

fn single_rate(kind: u8, first: f64) -> Hazard {
    Hazard::single_rate(kind, first)
}

/// Rate 1.0 up to each end and after the last.
fn piecewise(ends: &[f64]) -> Hazard {
    let pairs: Vec<(f64, f64)> = ends.iter().map(|end| (*end, 1.0)).collect();
    Hazard::piecewise(&pairs, 1.0)
}

/// The number that all three evaluations give.
fn number(hazard: &Hazard, t: f64) -> u8 {
    let numbers = [HAZARD_AT, 1, INVERT_CUMULATIVE_HAZARD].map(|op| {
        let answer = evaluate(op, hazard, t, 1.0);
        assert!(answer.number == 0 || answer == refused(answer.number));
        answer.number
    });
    assert!(numbers.iter().all(|n| *n == numbers[0]));
    numbers[0]
}

fn refused(number: u8) -> Evaluation {
    Evaluation {
        number,
        found: false,
        value: 0.0,
        piece: 0,
    }
}

#[test]
fn refused_by_4() {
    assert_eq!(number(&single_rate(5, 0.0), 1.0), 4);
    assert_eq!(number(&single_rate(255, f64::NAN), f64::NAN), 4);
    assert_eq!(number(&single_rate(ZERO, -0.0), 1.0), 4);
    assert_eq!(number(&single_rate(ZERO, f64::NAN), 1.0), 4);
}

#[test]
fn refused_by_5() {
    for bad in [f64::NAN, f64::INFINITY, LIMIT.next_up(), -LIMIT.next_up()] {
        for kind in [CONSTANT, GOMPERTZ, PIECEWISE, WEIBULL] {
            assert_eq!(number(&single_rate(kind, bad), 1.0), 5);
        }
        assert_eq!(number(&single_rate(CONSTANT, 1.0), bad), 5);
        let wait = invert_cumulative_hazard(&single_rate(CONSTANT, 1.0), 0.0, bad);
        assert_eq!(wait, Err(Refusal::OutOfRange));
    }
}

#[test]
fn refused_by_5_for_a_rate_among_eight_pairs() {
    let mut hazard = piecewise(&[1.0, 2.0, 3.0, 4.0, 5.0, 6.0, 7.0, 8.0]);
    hazard.count = 9;
    assert_eq!(number(&hazard, 1.0), 6);
    hazard.pairs[7].rate = f64::NAN;
    assert_eq!(number(&hazard, 1.0), 5);
}

#[test]
fn refused_by_6_for_ends() {
    let bad = [0.0, -0.0, -1.0, 1.0, 0.5, LIMIT.next_up(), f64::NAN];
    for end in bad {
        assert_eq!(number(&piecewise(&[1.0, end]), 1.0), 6);
    }
    assert_eq!(number(&piecewise(&[0.0]), 1.0), 6);
    assert_eq!(number(&piecewise(&[-0.0]), 1.0), 6);
}

#[test]
fn refused_by_6_for_what_is_unused() {
    let mut hazard = piecewise(&[1.0]);
    hazard.pairs[1].rate = f64::NAN;
    assert_eq!(number(&hazard, 1.0), 6);
    hazard.pairs[1].rate = -0.0;
    assert_eq!(number(&hazard, 1.0), 6);
    let mut counted = single_rate(CONSTANT, 1.0);
    counted.count = 1;
    assert_eq!(number(&counted, 1.0), 6);
    assert_eq!(number(&counted, f64::INFINITY), 5);
}

#[test]
fn accepted_at_the_limits() {
    assert_eq!(number(&single_rate(CONSTANT, -LIMIT), -LIMIT), 0);
    assert_eq!(number(&single_rate(GOMPERTZ, LIMIT), LIMIT), 0);
    assert_eq!(number(&piecewise(&[LIMIT.next_down(), LIMIT]), LIMIT), 0);
    assert_eq!(number(&single_rate(PIECEWISE, -0.0), -0.0), 0);
}

#[test]
fn an_infinite_wait_is_a_value() {
    let slow = single_rate(CONSTANT, f64::from_bits(1));
    let wait = invert_cumulative_hazard(&slow, 0.0, 1.0);
    assert_eq!(wait, Ok(Some(f64::INFINITY)));
}

/// The Rust may give -0.0 here; document 01 gives +0.0.
#[test]
fn a_rate_of_negative_zero_gives_positive_zero() {
    let negative_zero = single_rate(CONSTANT, -0.0);
    assert_eq!(hazard_at(&negative_zero, 0.0).map(f64::to_bits), Ok(0));
    let cumulative = evaluate(1, &negative_zero, 1.0, 0.0);
    assert_eq!(cumulative.value.to_bits(), 0);
}
