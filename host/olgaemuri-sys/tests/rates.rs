//! The rate for a wait, through the safe call.

use olgaemuri_sys::rate_for_wait;

/// 2^40, the longest wait and the largest rate.
const MOST: f64 = 1_099_511_627_776.0;

#[test]
fn worked_numbers() {
    let cases = [
        (2.0, 4.0, 0, 0.5),
        (1.0, 5.0, 0, 0.19999999999999998),
        (1.0, 49.0, 24, 0.0),
        (1e-323, 2.0, 0, 5e-324),
        (5e-324, 2.0, 24, 0.0),
        (1024.0, 1.0 / MOST, 24, 0.0),
        (1.0, 1.0 / MOST, 0, MOST),
    ];
    for (threshold, wait, number, rate) in cases {
        assert_eq!(
            rate_for_wait(threshold, wait),
            (number, rate),
            "{threshold} {wait}"
        );
    }
}

#[test]
fn the_limits_are_tried_at_their_values_and_just_beyond() {
    let smallest = f64::from_bits(1);
    for (threshold, within) in [
        (smallest, true),
        (1024.0, true),
        (0.0, false),
        (-0.0, false),
        (1024f64.next_up(), false),
    ] {
        assert_eq!(rate_for_wait(threshold, 4.0).0 != 23, within, "{threshold}");
    }
    for (wait, within) in [
        (1.0 / MOST, true),
        (MOST, true),
        ((1.0 / MOST).next_down(), false),
        (MOST.next_up(), false),
    ] {
        assert_eq!(rate_for_wait(1.0, wait).0 != 23, within, "{wait}");
    }
    for none in [-1.0, f64::NAN, -f64::NAN, f64::INFINITY, f64::NEG_INFINITY] {
        assert_eq!(rate_for_wait(none, 4.0), (23, 0.0), "{none}");
        assert_eq!(rate_for_wait(2.0, none), (23, 0.0), "{none}");
    }
}
