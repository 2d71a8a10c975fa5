//! A censor age before, at and after the event, and without a candidate (`sample_next`).

use reference::answer::Answer;
use reference::hazard::{CONSTANT, Hazard};
use reference::request::{CENSORED_CAUSE, Record, Request};
use reference::sampler::sample;

/// One cause, rate as given, age 1.0, threshold 2.0: with rate 0.5 the wait is 4.0.
fn run(rate: f64, censor: f64) -> Answer {
    let mut request = Request {
        n: 1,
        age: 1.0,
        has_censor: 1,
        censor,
        ..Request::default()
    };
    request.records[0] = Record {
        cause: 6,
        priority: 0,
        hazard: Hazard::single_rate(CONSTANT, rate),
    };
    sample(&request, &2.0f64.to_le_bytes(), &mut 0)
}

#[test]
fn at_or_after_the_event_is_not_censored() {
    assert_eq!(run(0.5, 5.0), Answer::event(6, 4.0));
    assert_eq!(run(0.5, 9.0), Answer::event(6, 4.0));
}

#[test]
fn before_the_event_is_censored() {
    assert_eq!(run(0.5, 3.0), Answer::event(CENSORED_CAUSE, 2.0));
    assert_eq!(run(0.5, 1.0), Answer::event(CENSORED_CAUSE, 0.0));
    assert_eq!(run(0.5, 0.5), Answer::event(CENSORED_CAUSE, 0.0));
}

#[test]
fn without_a_candidate_only_a_later_censor_is_an_event() {
    assert_eq!(run(0.0, 3.0), Answer::event(CENSORED_CAUSE, 2.0));
    assert_eq!(run(0.0, 1.0), Answer::default());
    assert_eq!(run(0.0, 0.5), Answer::default());
}
