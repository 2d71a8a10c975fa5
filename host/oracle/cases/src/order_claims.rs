//! What document 02 says of a sample's answer (change 8, its sentences after the first), asked of one answer. Candidates come from the
//! Rust's `invert_cumulative_hazard`, and from the model's for kind 4; sums are compared in exact numbers and rounded.

use crate::samples::SampleCase;
use reference::answer::Answer;
use reference::request::{Record, Request};
use std::cmp::Ordering;

/// A record's wait, where it is a candidate.
#[derive(Clone, Copy, Debug)]
struct Candidate {
    record: Record,
    wait: f64,
}

/// The candidates of an accepted sample: the used records draw by ascending cause, repeated causes in list order.
fn candidates(case: &SampleCase) -> Vec<Candidate> {
    let mut records = case.request.used().to_vec();
    records.sort_by_key(|record| record.cause);
    let drawn = &case.thresholds[case.position as usize..];
    let waits = records.into_iter().zip(drawn).filter_map(|(record, w)| {
        let hazard = record.hazard.build();
        let wait = hazard.invert_cumulative_hazard(case.request.age, *w)?;
        (wait.is_finite() && wait >= 0.0).then_some(Candidate { record, wait })
    });
    waits.collect()
}

/// a + b against c, in exact numbers: where the rounded sum is c, by what rounding left off.
pub fn exact_sum(a: f64, b: f64, c: f64) -> Ordering {
    let sum = a + b;
    let part = sum - a;
    let left_off = (a - (sum - part)) + (b - part);
    let against = |x: f64, y: f64| x.partial_cmp(&y).unwrap_or(Ordering::Equal);
    against(sum, c).then(against(left_off, 0.0))
}

/// The tie choice takes the first of the two.
fn preferred(tie: u8, first: &Record, second: &Record) -> bool {
    match tie {
        0 => first.cause < second.cause,
        1 => first.cause > second.cause,
        _ if first.priority != second.priority => first.priority > second.priority,
        _ => first.cause < second.cause,
    }
}

/// The censor age, where it is above the current age.
fn censor_ahead(request: &Request) -> Option<f64> {
    let censor = request.censor_age();
    censor.filter(|censor| request.age < *censor)
}

/// The sentence that does not hold of an accepted answer, if there is one.
pub fn broken(case: &SampleCase, answer: &Answer) -> Option<&'static str> {
    let candidates = candidates(case);
    match (answer.event, answer.censored) {
        (false, _) => no_event(case, &candidates),
        (true, true) => censored(case, &candidates),
        (true, false) => winner(case, &candidates, answer),
    }
}

fn no_event(case: &SampleCase, candidates: &[Candidate]) -> Option<&'static str> {
    let empty = case.request.used().is_empty();
    let nothing = candidates.is_empty() && censor_ahead(&case.request).is_none();
    (!empty && !nothing)
        .then_some("no event with a candidate or a censor age above the current one")
}

fn censored(case: &SampleCase, candidates: &[Candidate]) -> Option<&'static str> {
    let age = case.request.age;
    let Some(censor) = case.request.censor_age() else {
        return Some("censored without a censor age");
    };
    if case.request.used().is_empty() {
        return Some("an empty list has an event");
    }
    let below = |c: &Candidate| exact_sum(age, c.wait, censor).is_lt() || age + c.wait < censor;
    let left = candidates.iter().any(below);
    left.then_some("a censored answer leaves a candidate below the censor age")
}

fn winner(case: &SampleCase, candidates: &[Candidate], answer: &Answer) -> Option<&'static str> {
    let won = |c: &&Candidate| c.record.cause == answer.cause && c.wait == answer.delta;
    let Some(winner) = candidates.iter().find(won) else {
        return Some("the winner is no candidate");
    };
    if candidates.iter().any(|c| c.wait < winner.wait) {
        return Some("a rival is earlier");
    }
    let as_early = candidates.iter().filter(|c| c.wait == winner.wait);
    let mut records = as_early.map(|c| &c.record);
    if records.any(|record| preferred(case.request.tie, record, &winner.record)) {
        return Some("a rival is as early and preferred");
    }
    let censor = censor_ahead(&case.request);
    let after = censor.is_some_and(|censor| winner.wait > censor - case.request.age);
    after.then_some("the winner is after a censor age above the current one")
}
