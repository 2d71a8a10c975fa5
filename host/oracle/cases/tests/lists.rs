//! The lists of evaluations, samples and rates: their layout, that they are the same in every run,
//! and what they cover.

mod common;

use cases::evaluations::{self, EvaluationCase};
use cases::rate_pairs;
use cases::samples::{self, SampleCase};
use cases::{lists, tally};
use common::{checksum, numbers};
use reference::fields::LIMIT;
use reference::hazard::{Hazard, PIECEWISE, SMALLEST_SCALE, WEIBULL};
use std::collections::BTreeSet;

#[test]
fn evaluations_are_the_same_each_time() {
    let bytes = lists::evaluation_bytes(&lists::evaluations());
    assert_eq!(bytes, lists::evaluation_bytes(&lists::evaluations()));
    assert_eq!(
        bytes.len(),
        lists::EVALUATION_COUNT * evaluations::CASE_BYTES
    );
    assert_eq!(checksum(&bytes), 0x2774_DF31_1814_C17D);
}

#[test]
fn samples_are_the_same_each_time() {
    let bytes = lists::sample_bytes(&lists::samples());
    assert_eq!(bytes, lists::sample_bytes(&lists::samples()));
    assert_eq!(bytes.len(), lists::SAMPLE_COUNT * samples::CASE_BYTES);
    assert_eq!(checksum(&bytes), 0xB2C5_3226_094F_4598);
}

#[test]
fn rates_are_the_same_each_time() {
    let bytes = lists::rate_bytes(&lists::rates());
    assert_eq!(bytes, lists::rate_bytes(&lists::rates()));
    assert_eq!(bytes.len(), lists::RATE_COUNT * rate_pairs::CASE_BYTES);
    assert_eq!(checksum(&bytes), 0xA923_27AA_A9AA_18DB);
}

/// Row 1 comes second: cumulative of Constant 0.5 at 4.0 is 2.0. The second wait of row 4, in piece 2, comes tenth.
#[test]
fn layout_of_an_evaluation() {
    let bytes = lists::evaluation_bytes(&lists::evaluations());
    let cases: Vec<&[u8]> = bytes.chunks(evaluations::CASE_BYTES).collect();
    let case = cases[1];
    assert_eq!(case[..2], [1, 1]);
    assert_eq!(case[2..10], 0.5f64.to_le_bytes());
    assert_eq!(case[10..139], [0; 129]);
    assert_eq!(case[139..147], 4.0f64.to_le_bytes());
    assert_eq!(case[147..155], [0; 8]);
    assert_eq!(case[155..157], [0, 1]);
    assert_eq!(case[157..165], 2.0f64.to_le_bytes());
    assert_eq!(case[165..], [0; 8]);
    assert_eq!(cases[9][157..165], 6.0f64.to_le_bytes());
    assert_eq!(cases[9][165..], 2u64.to_le_bytes());
}

/// Row 7 with tie 0 comes first: causes 3 and 7, both waits 4.0.
#[test]
fn layout_of_a_sample() {
    let bytes = lists::sample_bytes(&lists::samples());
    let case = &bytes[..samples::CASE_BYTES];
    assert_eq!(case[..2], [2, 0]);
    assert_eq!(case[2..27], [0; 25]);
    assert_eq!(case[27], 2);
    assert_eq!(case[28..36], 2.0f64.to_le_bytes());
    assert_eq!(case[44..124], [0; 80]);
    assert_eq!(case[124..132], [3, 0, 0, 0, 1, 0, 0, 0]);
    assert_eq!(case[270..278], [7, 0, 0, 0, 9, 0, 0, 0]);
    assert_eq!(case[1292..1300], [0, 1, 0, 0, 3, 0, 0, 0]);
    assert_eq!(case[1300..1308], 4.0f64.to_le_bytes());
    assert_eq!(case[1308..1332], [0; 24]);
    assert_eq!(case[1332..], [2, 0, 0, 0, 0, 0, 0, 0]);
}

/// Document 02's example comes first, a pair without a rate third.
#[test]
fn layout_of_a_rate() {
    let bytes = lists::rate_bytes(&lists::rates());
    let cases: Vec<&[u8]> = bytes.chunks(rate_pairs::CASE_BYTES).collect();
    assert_eq!(cases[0][..8], 2.0f64.to_le_bytes());
    assert_eq!(cases[0][8..16], 4.0f64.to_le_bytes());
    assert_eq!(cases[0][16], 0);
    assert_eq!(cases[0][17..], 0.5f64.to_le_bytes());
    assert_eq!(cases[2][8..16], 49.0f64.to_le_bytes());
    assert_eq!(cases[2][16..], [24, 0, 0, 0, 0, 0, 0, 0, 0]);
}

#[test]
fn every_refusal_is_among_the_cases() {
    let evaluations = tally::evaluations(&lists::evaluations());
    assert_eq!(numbers(&evaluations), [4, 5, 6]);
    let samples = tally::samples(&lists::samples());
    assert_eq!(numbers(&samples), [1, 4, 5, 6, 7, 10, 15, 16]);
}

#[test]
fn most_cases_are_accepted() {
    let evaluations = lists::evaluations();
    let accepted = |case: &&EvaluationCase| case.expected().number == 0;
    assert!(evaluations.iter().filter(accepted).count() * 4 >= evaluations.len() * 3);
    let samples = lists::samples();
    let accepted = |case: &&SampleCase| case.expected().0.number == 0;
    assert!(samples.iter().filter(accepted).count() * 3 >= samples.len() * 2);
}

#[test]
fn every_kind_and_count_is_accepted_by_every_operation() {
    let accepted: BTreeSet<(u8, u8, u8)> = lists::evaluations()
        .iter()
        .filter(|case| case.expected().number == 0)
        .map(|case| (case.operation, case.hazard.kind, case.hazard.count))
        .collect();
    let kinds = (0..=WEIBULL).map(|kind| (kind, 0));
    let counts = (1..=8).map(|count| (PIECEWISE, count));
    let kinds: Vec<(u8, u8)> = kinds.chain(counts).collect();
    let all = (0..3).flat_map(|operation| kinds.iter().map(move |(k, n)| (operation, *k, *n)));
    assert_eq!(accepted, all.collect());
}

/// Kind 4 with each sort of scale: by its own refusal, at its ends, as Zero; and waits that the product does not reach.
#[test]
fn every_sort_of_scale_is_among_the_evaluations() {
    let cases = lists::evaluations();
    let kind_4: Vec<&EvaluationCase> = cases.iter().filter(|c| c.hazard.kind == WEIBULL).collect();
    let some = |name: &str, test: &dyn Fn(f64, &EvaluationCase) -> bool| {
        let count = kind_4.iter().filter(|case| test(case.hazard.first, case));
        assert!(count.count() >= 10, "{name}");
    };
    let number = |case: &EvaluationCase| case.expected().number;
    some("too small", &|scale, case| {
        scale > 0.0 && scale < SMALLEST_SCALE && number(case) == 5
    });
    some("smallest", &|scale, case| {
        scale == SMALLEST_SCALE && number(case) == 0
    });
    some("largest", &|scale, case| {
        scale == LIMIT && number(case) == 0
    });
    some("Zero", &|scale, case| scale <= 0.0 && number(case) == 0);
    some("a wait of zero", &|scale, case| {
        let answer = case.expected();
        scale > 0.0 && case.operation == 2 && case.w > 0.0 && answer.found && answer.value == 0.0
    });
    some("pairs or a count", &|_, case| number(case) == 6);
}

#[test]
fn every_number_of_causes_is_accepted_under_every_tie_choice() {
    let accepted: BTreeSet<(u8, u8)> = lists::samples()
        .iter()
        .filter(|case| case.expected().0.number == 0)
        .map(|case| (case.request.n, case.request.tie))
        .collect();
    let all = (0..=8).flat_map(|n| (0..3).map(move |tie| (n, tie)));
    assert_eq!(accepted, all.collect());
}

#[test]
fn ties_are_decided_by_every_tie_choice() {
    let decided: BTreeSet<u8> = lists::samples()
        .iter()
        .filter(|case| case.expected().0.delta > 0.0 && tally::decided_by_tie(case))
        .map(|case| case.request.tie)
        .collect();
    assert_eq!(decided, BTreeSet::from([0, 1, 2]));
}

/// Each of these stands in the time or rates of an accepted evaluation.
#[test]
fn extreme_floats_are_accepted() {
    let extremes = [-0.0, f64::from_bits(1), LIMIT, LIMIT.next_down(), -LIMIT];
    let accepted: Vec<EvaluationCase> = lists::evaluations()
        .into_iter()
        .filter(|case| case.expected().number == 0)
        .collect();
    for extreme in extremes {
        let same = |value: f64| value.to_bits() == extreme.to_bits();
        assert!(accepted.iter().any(|case| same(case.t)), "time {extreme:e}");
        assert!(accepted.iter().any(|case| has_rate(&case.hazard, same)));
    }
    assert!(accepted.iter().any(at_an_end));
}

fn has_rate(hazard: &Hazard, test: impl Fn(f64) -> bool) -> bool {
    test(hazard.first) || hazard.used().iter().any(|pair| test(pair.rate))
}

fn at_an_end(case: &EvaluationCase) -> bool {
    case.hazard.used().iter().any(|pair| pair.end == case.t)
}
