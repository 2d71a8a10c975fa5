//! Document 02, change 6: the piece of an inversion, by worked values.

use reference::evaluation::{Evaluation, INVERT_CUMULATIVE_HAZARD, evaluate, hazard_at};
use reference::fields::LIMIT;
use reference::hazard::{CONSTANT, GOMPERTZ, Hazard, WEIBULL};
use reference::piece::{piece, to_byte};

const SMALLEST: f64 = f64::from_bits(1);

/// P of document 01's table.
fn p() -> Hazard {
    Hazard::piecewise(&[(2.0, 1.0), (5.0, 0.0)], 0.5)
}

fn inverted(hazard: &Hazard, start: f64, w: f64) -> Evaluation {
    evaluate(INVERT_CUMULATIVE_HAZARD, hazard, start, w)
}

/// The wait and the piece of an inversion that has a wait.
fn wait(hazard: &Hazard, start: f64, w: f64) -> (f64, u64) {
    let answer = inverted(hazard, start, w);
    assert!(answer.number == 0 && answer.found, "{answer:?}");
    (answer.value, answer.piece)
}

/// Rows 4 and 5 of document 01's table.
#[test]
fn rows_of_the_table() {
    assert_eq!(wait(&p(), 0.0, 2.0), (2.0, 0));
    assert_eq!(wait(&p(), 0.0, 2.5), (6.0, 2));
    assert_eq!(wait(&p(), 2.0, 0.5), (4.0, 2));
}

/// A w that just fills a pair belongs to it; the next one is in piece 2, since piece 1 has rate 0.
#[test]
fn a_pair_just_filled() {
    assert_eq!(piece(&p(), 0.0, 2.0f64.next_down()), 0);
    assert_eq!(piece(&p(), 0.0, 2.0), 0);
    assert_eq!(piece(&p(), 0.0, 2.0f64.next_up()), 2);
}

/// A start equal to an end is in the next piece; a start below 0 counts as 0.
#[test]
fn starts_beside_an_end() {
    let two = Hazard::piecewise(&[(2.0, 1.0), (5.0, 1.0)], 0.5);
    let before = 2.0f64.next_down();
    assert_eq!(piece(&two, before, 2.0 - before), 0);
    assert_eq!(piece(&two, 2.0, SMALLEST), 1);
    assert_eq!(piece(&two, 2.0, 3.0), 1);
    assert_eq!(piece(&two, 2.0, 3.0f64.next_up()), 2);
    assert_eq!(piece(&two, 5.0, SMALLEST), 2);
    assert_eq!(piece(&two, LIMIT, 1.0), 2);
    for start in [-LIMIT, -1.0, -0.0] {
        assert_eq!(piece(&two, start, 2.0), 0);
        assert_eq!(piece(&two, start, 2.0f64.next_up()), 1);
    }
}

/// Pairs are counted from 0, the trailing rate is the count.
#[test]
fn every_piece_of_eight_pairs() {
    let ends = [1.0, 2.0, 3.0, 4.0, 5.0, 6.0, 7.0, 8.0];
    let curve = Hazard::piecewise(&ends.map(|end| (end, 1.0)), 1.0);
    for (index, end) in ends.into_iter().enumerate() {
        assert_eq!(wait(&curve, 0.0, end - 0.5), (end - 0.5, index as u64));
        assert_eq!(wait(&curve, 0.0, end), (end, index as u64));
    }
    assert_eq!(wait(&curve, 0.0, 8.5), (8.5, 8));
}

#[test]
fn w_at_most_zero() {
    for w in [0.0, -0.0, -SMALLEST, -1.0] {
        for start in [0.0, 2.0, 6.0] {
            assert_eq!(wait(&p(), start, w), (0.0, 0));
        }
    }
}

#[test]
fn all_other_kinds() {
    for kind in [CONSTANT, GOMPERTZ, WEIBULL] {
        for start in [0.0, 6.0] {
            assert_eq!(
                inverted(&Hazard::single_rate(kind, 0.5), start, 3.0).piece,
                0
            );
        }
    }
    assert_eq!(inverted(&Hazard::default(), 6.0, 3.0).piece, 0);
}

/// Kind 3 without pairs has the trailing piece alone, which is 0.
#[test]
fn no_pairs() {
    assert_eq!(wait(&Hazard::piecewise(&[], 0.5), 6.0, 3.0), (6.0, 0));
}

/// No wait by the trailing rate: neither the count nor the piece of the start.
#[test]
fn no_wait() {
    for trailing in [0.0, -0.0, -1.0] {
        let curve = Hazard::piecewise(&[(2.0, 1.0), (5.0, 0.0)], trailing);
        for (start, w) in [(0.0, 3.0), (3.0, 1.0), (6.0, 1.0)] {
            assert_eq!(inverted(&curve, start, w), Evaluation::default());
        }
        assert_eq!(wait(&curve, 0.0, 2.0), (2.0, 0));
    }
}

/// Rate 5e-324 and w 3: the wait is infinite although the rate is above 0.
#[test]
fn infinite_wait() {
    let curve = Hazard::piecewise(&[(2.0, 1.0)], SMALLEST);
    assert_eq!(wait(&curve, 0.0, 3.0), (f64::INFINITY, 0));
    assert_eq!(wait(&curve, 5.0, 3.0), (f64::INFINITY, 0));
    assert_eq!(wait(&curve, 5.0, SMALLEST), (1.0, 1));
}

/// 0.3 times 7 rounds to 2.1, so this w fills the pair; the wait, 2.1 / 0.3, rounds to the f64 above 7. The piece is that of the pair
/// used, not the one where the rounded time lies.
#[test]
fn the_rounded_time_lies_past_the_pair_used() {
    let curve = Hazard::piecewise(&[(7.0, 0.3)], 1.0);
    assert_eq!(wait(&curve, 0.0, 2.1), (7.0f64.next_up(), 0));
    assert_eq!(hazard_at(&curve, 7.0f64.next_up()), Ok(1.0));
    assert_eq!(piece(&curve, 0.0, 2.1f64.next_up()), 1);
    let aged = Hazard::piecewise(&[(15.0, 0.3)], 1.0);
    let (waited, used) = wait(&aged, 1.0, 4.2);
    assert_eq!((1.0 + waited, used), (15.0f64.next_up(), 0));
    let second = Hazard::piecewise(&[(1.0, 0.2), (7.0, 0.1)], 1.0);
    assert_eq!(wait(&second, 0.0, 0.8), (7.0f64.next_up(), 1));
}

/// With the smallest rate 0.6 times it rounds up to it: the wait, 1, lies beyond the next pair too.
#[test]
fn the_rounded_time_lies_past_the_next_pair() {
    let curve = Hazard::piecewise(&[(0.6, SMALLEST), (0.9, 1.0)], 1.0);
    assert_eq!(wait(&curve, 0.0, SMALLEST), (1.0, 0));
}

/// A negative rate counts as 0: its pair is never used.
#[test]
fn negative_rates() {
    let curve = Hazard::piecewise(&[(2.0, -1.0), (5.0, -0.0), (6.0, 1.0)], 0.5);
    assert_eq!(wait(&curve, 0.0, 1.0), (6.0, 2));
    assert_eq!(wait(&curve, 0.0, 1.5), (7.0, 3));
}

#[test]
fn a_refused_inversion_has_no_piece() {
    for (number, hazard, w) in [
        (5, p(), f64::NAN),
        (4, Hazard { kind: 5, ..p() }, 2.5),
        (6, Hazard { count: 9, ..p() }, 2.5),
    ] {
        let refused = Evaluation {
            number,
            ..Evaluation::default()
        };
        assert_eq!(inverted(&hazard, 0.0, w), refused);
    }
}

#[test]
fn the_byte_of_a_piece() {
    for (piece, byte) in [(0, 0), (8, 8), (255, 255), (256, 255), (2048, 255)] {
        assert_eq!(to_byte(piece), byte);
    }
}
