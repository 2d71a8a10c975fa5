//! The rate for a wait: its limits, each tried at its value and just beyond it, and the worked numbers.

use crate::document::{number, table};
use olgaemuri::rate_for_wait;
use olgaemuri::text::parse_float;

/// The float in a cell: a power of two, NaN, or as in a session.
pub fn float(cell: &str) -> f64 {
    let cell = cell.replace('−', "-");
    match cell.strip_prefix("2^") {
        Some(exponent) => 2f64.powi(exponent.parse().expect("an exponent")),
        None if cell == "NaN" => f64::NAN,
        None => parse_float(&cell).expect("a float"),
    }
}

/// The number, and the rate: 0 where there is none.
fn answered(threshold: f64, wait: f64) -> (usize, f64) {
    match rate_for_wait(threshold, wait) {
        Ok(rate) => (0, rate),
        Err(refusal) => (usize::from(refusal.number()), 0.0),
    }
}

/// Holds for the limits of a row that the number of what is within is not the one of what is outside.
fn hold(row: &[&str], tried: impl Fn(f64) -> usize) {
    let outside = number(row[4]);
    let cells = row[1..4]
        .iter()
        .map(|cell| (!cell.is_empty()).then(|| float(cell)));
    let [above, from, to] = cells.collect::<Vec<_>>().try_into().expect("three cells");
    let least = from.or(above.map(f64::next_up)).expect("a least value");
    let most = to.expect("a largest value");
    for value in [least, most] {
        assert_ne!(tried(value), outside, "{} {value}", row[0]);
    }
    for value in [least.next_down(), most.next_up()] {
        assert_eq!(tried(value), outside, "{} {value}", row[0]);
    }
}

#[test]
fn limits() {
    let rows = table("| operand | above | from | to | outside it |");
    let [threshold, wait, rate] = rows.as_slice() else {
        panic!("three rows")
    };
    assert_eq!([threshold[0], wait[0], rate[0]], ["w", "T", "rate"]);
    hold(threshold, |value| answered(value, 4.0).0);
    hold(wait, |value| answered(2.0, value).0);
    // of the threshold r the rate for 1 is r; 2^-40 is the wait for 1 at the largest rate
    let (above, most, none) = (float(rate[1]), float(rate[3]), number(rate[4]));
    assert_eq!(answered(above.next_up(), 1.0), (0, above.next_up()));
    assert_eq!(answered(above.next_up(), 2.0), (none, 0.0));
    assert_eq!(answered(1.0, 1.0 / most), (0, most));
    assert_eq!(answered(1f64.next_up(), 1.0 / most), (none, 0.0));
}

#[test]
fn worked_numbers() {
    let rows = table("| w | T | number | rate | why |");
    assert!(rows.len() > 12);
    for row in rows {
        let expected = (number(row[2]), float(row[3]));
        assert_eq!(answered(float(row[0]), float(row[1])), expected, "{row:?}");
    }
}
