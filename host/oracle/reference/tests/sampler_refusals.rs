//! Refusals of the sampler, their order, and what is accepted at the limits.

use reference::answer::Answer;
use reference::fields::LIMIT;
use reference::hazard::{CONSTANT, Hazard};
use reference::request::{CENSORED_CAUSE, Record, Request};
use reference::sampler::sample;

/// n causes 0, 1, .. with rate 1.0 each.
fn request(n: u8) -> Request {
    let mut request = Request {
        n,
        ..Request::default()
    };
    for (cause, record) in (0..).zip(&mut request.records) {
        *record = Record {
            cause,
            priority: 0,
            hazard: Hazard::single_rate(CONSTANT, 1.0),
        };
    }
    request
}

/// Samples and tests what a refusal leaves: zero fields and the position as it was.
fn run(request: &Request, thresholds: &[f64], start: u64) -> Answer {
    let bytes: Vec<u8> = thresholds.iter().flat_map(|w| w.to_le_bytes()).collect();
    let mut position = start;
    let answer = sample(request, &bytes, &mut position);
    if answer.number == 0 {
        assert_eq!(position, start + u64::from(request.n));
    } else {
        let zero_elsewhere = Answer {
            number: answer.number,
            ..Answer::default()
        };
        assert_eq!((answer, position), (zero_elsewhere, start));
    }
    answer
}

fn number(request: &Request) -> u8 {
    run(request, &[1.0; 8], 0).number
}

#[test]
fn refused_by_4() {
    let change = [
        (|r| r.tie = 3) as fn(&mut Request),
        |r| r.has_censor = 2,
        |r| r.censor = -0.0,
        |r| r.records[1].hazard.kind = 5,
        |r| r.records[1].hazard.kind = 0,
    ];
    for change in change {
        let mut request = request(2);
        change(&mut request);
        assert_eq!(number(&request), 4);
    }
}

#[test]
fn refused_by_5() {
    for bad in [f64::NAN, -0.0, -1.0, LIMIT.next_up(), f64::INFINITY] {
        let mut aged = request(0);
        aged.age = bad;
        assert_eq!(number(&aged), 5);
        let mut censored = request(0);
        (censored.has_censor, censored.censor) = (1, bad);
        assert_eq!(number(&censored), 5);
    }
    let mut rated = request(2);
    rated.records[1].hazard.first = f64::NEG_INFINITY;
    assert_eq!(number(&rated), 5);
}

#[test]
fn refused_by_6_and_7() {
    let mut request = request(8);
    request.records[7].cause = CENSORED_CAUSE;
    assert_eq!(number(&request), 7);
    request.records[5].hazard.count = 1;
    assert_eq!(number(&request), 6);
    request.records[6].hazard.first = f64::NAN;
    assert_eq!(number(&request), 5);
    request.records[7].hazard.kind = 9;
    assert_eq!(number(&request), 4);
}

#[test]
fn refused_by_10_after_all_eight_records() {
    for n in [9, 255] {
        let mut request = request(n);
        assert_eq!(run(&request, &[], 1).number, 10);
        request.records[7].cause = CENSORED_CAUSE;
        assert_eq!(number(&request), 7);
    }
}

#[test]
fn refused_by_1() {
    assert_eq!(run(&request(0), &[1.0], 2).number, 1);
    assert_eq!(run(&request(1), &[1.0], u64::MAX).number, 1);
    assert_eq!(run(&request(0), &[1.0], 1).number, 0);
}

#[test]
fn refused_by_15_or_16_by_the_first_draw_that_fails() {
    assert_eq!(run(&request(2), &[1.0], 0).number, 15);
    assert_eq!(run(&request(1), &[1.0], 1).number, 15);
    assert_eq!(run(&request(2), &[f64::NAN], 0).number, 16);
    for bad in [-1.0, f64::INFINITY, 1024.0f64.next_up(), -f64::from_bits(1)] {
        assert_eq!(run(&request(2), &[1.0, bad], 0).number, 16);
        assert_eq!(run(&request(1), &[1.0, bad], 0).number, 0);
    }
    assert_eq!(run(&request(3), &[0.0, -0.0, 1024.0], 0).number, 0);
}

#[test]
fn bytes_after_the_last_whole_threshold_do_not_count() {
    let mut position = 0;
    let answer = sample(&request(1), &[0; 15], &mut position);
    assert_eq!((answer.number, answer.event, position), (0, true, 1));
    let second = sample(&request(1), &[0; 15], &mut position);
    assert_eq!((second.number, position), (15, 1));
}

#[test]
fn unused_records_are_not_tested() {
    let mut request = request(1);
    request.records[1].hazard.kind = 200;
    request.records[2].cause = CENSORED_CAUSE;
    assert_eq!(number(&request), 0);
}

#[test]
fn no_causes_answer_no_event_even_with_a_censor() {
    let mut empty = request(0);
    (empty.has_censor, empty.censor) = (1, 5.0);
    assert_eq!(run(&empty, &[], 0), Answer::default());
}
