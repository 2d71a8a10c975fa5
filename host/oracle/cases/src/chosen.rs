//! Chosen cases: rows 1 to 7 of document 01's table, the limits, and those of kind 4 and of pieces.

use crate::evaluations::EvaluationCase;
use crate::floats::{LARGEST_SUBNORMAL, SMALLEST};
use crate::samples::SampleCase;
use crate::{chosen_pieces, chosen_weibull};
use reference::evaluation::{CUMULATIVE_HAZARD, HAZARD_AT, INVERT_CUMULATIVE_HAZARD};
use reference::fields::LIMIT;
use reference::hazard::{CONSTANT, GOMPERTZ, Hazard, PIECEWISE};
use reference::request::{Record, Request};

/// P of document 01's table.
pub(crate) fn table_hazard() -> Hazard {
    Hazard::piecewise(&[(2.0, 1.0), (5.0, 0.0)], 0.5)
}

pub(crate) fn at(hazard: Hazard, t: f64) -> [EvaluationCase; 2] {
    [HAZARD_AT, CUMULATIVE_HAZARD].map(|operation| EvaluationCase {
        operation,
        hazard,
        t,
        w: 0.0,
    })
}

pub(crate) fn wait(hazard: Hazard, start: f64, w: f64) -> EvaluationCase {
    EvaluationCase {
        operation: INVERT_CUMULATIVE_HAZARD,
        hazard,
        t: start,
        w,
    }
}

pub fn evaluations() -> Vec<EvaluationCase> {
    let mut cases = rows();
    for hazard in limit_hazards() {
        for t in [-1.0, -0.0, SMALLEST, 0.5, LIMIT] {
            cases.extend(at(hazard, t));
        }
        for (start, w) in [(0.0, -0.0), (-0.0, SMALLEST), (2.0, 1.0), (0.0, LIMIT)] {
            cases.push(wait(hazard, start, w));
        }
    }
    cases.extend(chosen_weibull::evaluations());
    cases.extend(chosen_pieces::evaluations());
    cases
}

/// Rows 1 to 6.
fn rows() -> Vec<EvaluationCase> {
    let p = table_hazard();
    let mut cases = at(Hazard::single_rate(CONSTANT, 0.5), 4.0).to_vec();
    for t in [1.0, 2.0, 6.0] {
        cases.extend(at(p, t));
    }
    for (start, w) in [(0.0, 2.0), (0.0, 2.5), (2.0, 0.5)] {
        cases.push(wait(p, start, w));
    }
    cases.extend([0.0, 1.0].map(|w| wait(Hazard::default(), 0.0, w)));
    cases
}

/// Zeros of both signs, the smallest and the largest rates, ends at the limit, a zero rate last.
fn limit_hazards() -> [Hazard; 12] {
    [
        Hazard::default(),
        Hazard::single_rate(CONSTANT, -0.0),
        Hazard::single_rate(CONSTANT, -1.0),
        Hazard::single_rate(CONSTANT, SMALLEST),
        Hazard::single_rate(CONSTANT, LIMIT),
        Hazard::single_rate(GOMPERTZ, -0.0),
        Hazard::single_rate(GOMPERTZ, LARGEST_SUBNORMAL),
        Hazard::single_rate(PIECEWISE, -0.0),
        Hazard::single_rate(PIECEWISE, LIMIT.next_down()),
        table_hazard(),
        Hazard::piecewise(&[(SMALLEST, 1.0), (2.0, -0.0), (LIMIT, 0.5)], -0.0),
        Hazard::piecewise(&[(LIMIT.next_down(), SMALLEST), (LIMIT, LIMIT)], SMALLEST),
    ]
}

/// Row 7 under each tie choice, then with a censor age around the event, then with full ties.
pub fn samples() -> Vec<SampleCase> {
    let mut cases = Vec::new();
    for tie in 0..3 {
        let row = tied(tie, &[(3, 1), (7, 9)]);
        cases.push(row.clone());
        for censor in [0.0, 4.0f64.next_down(), 4.0, 4.0f64.next_up(), LIMIT] {
            cases.push(censored(&row, censor));
        }
        cases.push(tied(tie, &[(7, 9), (3, 1), (5, 9), (1, 0)]));
        cases.push(tied(tie, &[(4, 2), (4, 8), (4, 2), (9, 8)]));
        cases.push(tied(tie, &[]));
        cases.push(censored(&tied(tie, &[]), 4.0));
    }
    for n in [9, 255] {
        let mut case = tied(0, &[(1, 0); 8]);
        case.request.n = n;
        cases.push(case);
    }
    cases.extend(chosen_weibull::samples());
    cases.extend(chosen_pieces::samples());
    cases
}

/// Causes and priorities as given, each with a wait of 4.0 from age 0.
pub(crate) fn tied(tie: u8, causes: &[(u32, u32)]) -> SampleCase {
    let mut request = Request {
        n: causes.len() as u8,
        tie,
        ..Request::default()
    };
    for (record, (cause, priority)) in request.records.iter_mut().zip(causes.iter().copied()) {
        *record = Record {
            cause,
            priority,
            hazard: Hazard::single_rate(CONSTANT, 0.5),
        };
    }
    SampleCase {
        request,
        position: 0,
        thresholds: vec![2.0; causes.len()],
    }
}

fn censored(case: &SampleCase, censor: f64) -> SampleCase {
    let mut case = case.clone();
    case.request.has_censor = 1;
    case.request.censor = censor;
    case
}
