//! Rows 1 to 7 of document 01's table.

use reference::evaluation::{cumulative_hazard, hazard_at, invert_cumulative_hazard};
use reference::hazard::{CONSTANT, Hazard};
use reference::request::{Record, Request};
use reference::sampler::sample;

fn constant(rate: f64) -> Hazard {
    Hazard::single_rate(CONSTANT, rate)
}

/// P of the table: pairs (2, 1.0), (5, 0.0), trailing 0.5.
fn table_hazard() -> Hazard {
    Hazard::piecewise(&[(2.0, 1.0), (5.0, 0.0)], 0.5)
}

#[test]
fn row_1_constant_cumulative() {
    assert_eq!(cumulative_hazard(&constant(0.5), 4.0), Ok(2.0));
}

#[test]
fn row_2_piecewise_hazard() {
    assert_eq!(hazard_at(&table_hazard(), 1.0), Ok(1.0));
    assert_eq!(hazard_at(&table_hazard(), 2.0), Ok(0.0));
}

#[test]
fn row_3_piecewise_cumulative() {
    assert_eq!(cumulative_hazard(&table_hazard(), 2.0), Ok(2.0));
    assert_eq!(cumulative_hazard(&table_hazard(), 6.0), Ok(2.5));
}

#[test]
fn row_4_piecewise_wait_from_zero() {
    let wait = |w| invert_cumulative_hazard(&table_hazard(), 0.0, w);
    assert_eq!(wait(2.0), Ok(Some(2.0)));
    assert_eq!(wait(2.5), Ok(Some(6.0)));
}

#[test]
fn row_5_piecewise_wait_from_two() {
    let wait = invert_cumulative_hazard(&table_hazard(), 2.0, 0.5);
    assert_eq!(wait, Ok(Some(4.0)));
}

#[test]
fn row_6_zero() {
    let wait = |w| invert_cumulative_hazard(&Hazard::default(), 0.0, w);
    assert_eq!(wait(0.0), Ok(Some(0.0)));
    assert_eq!(wait(1.0), Ok(None));
}

#[test]
fn row_7_ties() {
    for (tie, cause) in [(0, 3), (1, 7), (2, 7)] {
        let answer = tied_answer(tie);
        assert_eq!((answer.cause, answer.delta), (cause, 4.0));
        assert!(answer.event && !answer.censored);
    }
}

/// Both waits 4.0: cause 3 with priority 1, cause 7 with priority 9.
fn tied_answer(tie: u8) -> reference::answer::Answer {
    let mut request = Request {
        n: 2,
        tie,
        ..Request::default()
    };
    for (index, cause, priority) in [(0, 3, 1), (1, 7, 9)] {
        request.records[index] = Record {
            cause,
            priority,
            hazard: constant(0.5),
        };
    }
    let thresholds = [2.0f64, 2.0].map(f64::to_le_bytes).concat();
    let mut position = 0;
    let answer = sample(&request, &thresholds, &mut position);
    assert_eq!(position, 2);
    answer
}
