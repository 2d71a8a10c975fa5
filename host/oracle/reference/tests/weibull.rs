//! Document 02, change 4: kind 4 by worked values, its limits, and where another order of steps would give another number.

use kairo_ecs_rng::{UnchangedHazard, Weibull};
use reference::evaluation::{cumulative_hazard, evaluate, hazard_at, invert_cumulative_hazard};
use reference::fields::LIMIT;
use reference::hazard::{Hazard, SMALLEST_SCALE, WEIBULL};
use reference::refusal::Refusal;

const SMALLEST: f64 = f64::from_bits(1);

fn kind_4(scale: f64) -> Hazard {
    Hazard::single_rate(WEIBULL, scale)
}

fn hazard(scale: f64, t: f64) -> f64 {
    hazard_at(&kind_4(scale), t).expect("accepted")
}

fn cumulative(scale: f64, t: f64) -> f64 {
    cumulative_hazard(&kind_4(scale), t).expect("accepted")
}

fn wait(scale: f64, start: f64, w: f64) -> Option<f64> {
    invert_cumulative_hazard(&kind_4(scale), start, w).expect("accepted")
}

/// The same bits.
fn same(left: Option<f64>, right: f64) {
    assert_eq!(left.map(f64::to_bits), Some(right.to_bits()));
}

#[test]
fn worked_values() {
    assert_eq!(hazard(2.0, 3.0), 1.5);
    assert_eq!(cumulative(2.0, 3.0), 2.25);
    same(wait(2.0, 0.0, 4.0), 4.0);
    same(wait(2.0, 3.0, 4.0), 2.0);
    same(wait(1.0, 0.0, 2.0), std::f64::consts::SQRT_2);
}

/// Scale 3, t 13: not 2 * q / scale. Scale 3, t 11: not 2 * t / (scale * scale).
#[test]
fn steps_of_the_hazard() {
    let (scale, t) = (3.0, 13.0);
    assert_eq!(hazard(scale, t), (2.0 / scale) * (t / scale));
    assert_ne!(hazard(scale, t), 2.0 * (t / scale) / scale);
    let t = 11.0;
    assert_eq!(hazard(scale, t), (2.0 / scale) * (t / scale));
    assert_ne!(hazard(scale, t), 2.0 * t / (scale * scale));
}

/// Scale 3, t 5: not t * t / (scale * scale).
#[test]
fn steps_of_the_cumulative() {
    let (scale, t) = (3.0, 5.0);
    assert_eq!(cumulative(scale, t), (t / scale) * (t / scale));
    assert_ne!(cumulative(scale, t), t * t / (scale * scale));
}

/// Scale 3, start 3, w 1: not scale * (s - q).
#[test]
fn steps_of_the_wait() {
    let s = 2.0f64.sqrt();
    same(wait(3.0, 3.0, 1.0), 3.0 * s - 3.0);
    assert_ne!(wait(3.0, 3.0, 1.0), Some(3.0 * (s - 1.0)));
}

/// From start 0 with scale 1 the wait is the root. Below a power of two floats lie half as far apart as above it.
#[test]
fn roots_beside_powers_of_two() {
    let below = 1.0f64.next_down();
    same(wait(1.0, 0.0, below), below);
    same(wait(1.0, 0.0, 1.0), 1.0);
    same(wait(1.0, 0.0, 1.0f64.next_up()), 1.0);
    let twice = 1.0f64.next_up().next_up();
    same(wait(1.0, 0.0, twice), 1.0f64.next_up());
    let power = f64::from_bits((1023 - 537) << 52);
    same(wait(1.0, 0.0, SMALLEST), power);
    same(wait(1.0, 0.0, LIMIT), 1_048_576.0);
}

/// At most 0 counts as +0.0, in the subtraction too.
#[test]
fn times_at_most_zero() {
    for t in [0.0, -0.0, -SMALLEST, -1.0, -LIMIT] {
        assert_eq!(hazard(3.0, t).to_bits(), 0);
        assert_eq!(cumulative(3.0, t).to_bits(), 0);
        same(wait(1.0, t, 1.0), 1.0);
    }
}

/// Scale times the root may fall to the start or below it: at 2^40 the sum is the cumulative hazard itself; with scale 49 the product is the
/// f64 below the start.
#[test]
fn waits_not_below_zero() {
    same(wait(1.0, LIMIT, 1.0), 0.0);
    let root = (cumulative(49.0, 1.0) + SMALLEST).sqrt();
    assert_eq!(49.0 * root, 1.0f64.next_down());
    same(wait(49.0, 1.0, SMALLEST), 0.0);
}

#[test]
fn w_at_most_zero_comes_first() {
    for w in [0.0, -0.0, -SMALLEST, -1.0, -LIMIT] {
        for scale in [3.0, SMALLEST_SCALE, LIMIT, 0.0, -0.0, -1.0] {
            same(wait(scale, 5.0, w), 0.0);
        }
    }
}

#[test]
fn scales_at_most_zero_are_zero() {
    for scale in [0.0, -0.0, -SMALLEST, -SMALLEST_SCALE, -1.0, -LIMIT] {
        assert_eq!(hazard(scale, 5.0).to_bits(), 0);
        assert_eq!(cumulative(scale, 5.0).to_bits(), 0);
        assert_eq!(wait(scale, 0.0, SMALLEST), None);
        assert_eq!(wait(scale, 5.0, LIMIT), None);
    }
}

/// The number that all three evaluations give.
fn number(hazard: &Hazard, t: f64) -> u8 {
    let numbers = [0, 1, 2].map(|operation| evaluate(operation, hazard, t, 1.0).number);
    assert_eq!(numbers, [numbers[0]; 3]);
    numbers[0]
}

#[test]
fn scales_refused_by_5() {
    for scale in [SMALLEST_SCALE, SMALLEST_SCALE.next_up(), LIMIT] {
        assert_eq!(number(&kind_4(scale), 1.0), 0, "{scale:e}");
    }
    assert_eq!(SMALLEST_SCALE * LIMIT, 1.0);
    let small = [SMALLEST_SCALE.next_down(), f64::MIN_POSITIVE, SMALLEST];
    let bad = [f64::NAN, f64::INFINITY, LIMIT.next_up(), -LIMIT.next_up()];
    for scale in small.into_iter().chain(bad) {
        assert_eq!(number(&kind_4(scale), 1.0), 5, "{scale:e}");
    }
    assert_eq!(number(&kind_4(1.0), LIMIT.next_up()), 5);
    let refused = invert_cumulative_hazard(&kind_4(1.0), 0.0, f64::NAN);
    assert_eq!(refused, Err(Refusal::OutOfRange));
}

/// Count 0 and zero bits in every pair; 4 for the next kind, 5 before 6.
#[test]
fn refused_by_6_and_4() {
    let mut counted = kind_4(1.0);
    counted.count = 1;
    assert_eq!(number(&counted, 1.0), 6);
    for place in 0..8 {
        for bad in [-0.0, 1.0, f64::NAN] {
            let mut paired = kind_4(1.0);
            paired.pairs[place].end = bad;
            assert_eq!(number(&paired, 1.0), 6);
            let mut paired = kind_4(-0.0);
            paired.pairs[place].rate = bad;
            assert_eq!(number(&paired, 1.0), 6);
        }
    }
    counted.first = SMALLEST_SCALE.next_down();
    assert_eq!(number(&counted, 1.0), 5);
    counted.kind = WEIBULL + 1;
    assert_eq!(number(&counted, 1.0), 4);
}

/// Only in a state that is handed in; the wait is infinite then.
#[test]
fn infinite_sum() {
    let weibull = Weibull { scale: 1.0 };
    let wait = weibull.invert_cumulative_hazard(0.0, 1e308 + 1e308);
    assert_eq!(wait, Some(f64::INFINITY));
    let longest = weibull.invert_cumulative_hazard(0.0, f64::MAX);
    assert!(longest.is_some_and(f64::is_finite));
}

/// The Rust's own Weibull of shape 2: where no step is rounded it gives the same.
#[test]
fn the_rust_where_no_step_is_rounded() {
    let rust = UnchangedHazard::Weibull {
        shape: 2.0,
        scale: 2.0,
    };
    for t in [-1.0, 0.0, 0.5, 1.0, 4.0, 64.0] {
        assert_eq!(hazard(2.0, t), rust.hazard_at(t));
        assert_eq!(cumulative(2.0, t), rust.cumulative_hazard(t));
    }
    for (start, w) in [(0.0, 4.0), (-1.0, 4.0), (0.0, 0.25), (6.0, 7.0)] {
        assert_eq!(wait(2.0, start, w), rust.invert_cumulative_hazard(start, w));
    }
}
