//! The model of pieces (document 02, change 6) held to the unchanged Rust on random curves, and how often a piece other than 0 comes.

use cases::evaluations::EvaluationCase;
use cases::piece_tally::PieceTally;
use cases::random::Random;
use cases::samples::SampleCase;
use cases::{chosen, lists};
use reference::evaluation::{INVERT_CUMULATIVE_HAZARD, invert_cumulative_hazard};
use reference::hazard::{Hazard, PIECEWISE};

const SEED: u64 = 0x7069_6563_6573_2036;
const CASES: usize = 1_000_000;

/// What the Rust says of the curve cut off after each pair, with no trailing rate: the first that still has a wait ends in its last pair.
/// Where none has, a finite wait of the whole curve is in the trailing piece.
fn by_the_rust(hazard: &Hazard, start: f64, w: f64) -> u64 {
    let wait = |hazard: &Hazard| invert_cumulative_hazard(hazard, start, w).expect("accepted");
    let whole = wait(hazard).filter(|wait| wait.is_finite());
    if hazard.kind != PIECEWISE || w <= 0.0 || whole.is_none() {
        return 0;
    }
    let pairs: Vec<(f64, f64)> = hazard.used().iter().map(|p| (p.end, p.rate)).collect();
    let cut = |kept: &usize| Hazard::piecewise(&pairs[..*kept], 0.0);
    let first = (1..=pairs.len()).find(|kept| wait(&cut(kept)).is_some());
    first.map_or(pairs.len(), |kept| kept - 1) as u64
}

/// The model's piece of an accepted inversion, which has to be the Rust's.
fn checked(case: &EvaluationCase) -> Option<u64> {
    let answer = case.expected();
    if case.operation != INVERT_CUMULATIVE_HAZARD || answer.number != 0 {
        assert_eq!(answer.piece, 0, "{case:?}");
        return None;
    }
    let rust = by_the_rust(&case.hazard, case.t, case.w);
    assert_eq!(answer.piece, rust, "{case:?}");
    Some(answer.piece)
}

#[test]
fn the_rust_on_curves_that_are_cut_off() {
    for case in chosen::evaluations() {
        checked(&case);
    }
    let mut random = Random::new(SEED);
    let (mut pieces, mut tally) = ([0; 9], PieceTally::default());
    assert_eq!(tally.least().0, 0);
    for _ in 0..CASES {
        let case = EvaluationCase::random(&mut random);
        let Some(piece) = checked(&case) else {
            continue;
        };
        pieces[piece as usize] += 1;
        tally.add_evaluation(&case, &case.expected());
        tally.add_sample(&SampleCase::random(&mut random).expected().0);
    }
    assert!(pieces.iter().all(|count| *count > 1000), "{pieces:?}");
    assert!(tally.least().0 > 500, "{tally}");
}

/// Of the fixed lists.
#[test]
fn pieces_are_common_in_the_lists() {
    let evaluations = lists::evaluations();
    let found = evaluations.iter().filter(|case| case.expected().piece > 0);
    assert!(found.count() > 150);
    let samples = lists::samples();
    let found = samples.iter().filter(|case| case.expected().0.piece > 0);
    assert!(found.count() > 80);
    let steps = lists::clock_steps();
    let found = steps.iter().filter(|step| step.answer.piece > 0);
    assert!(found.count() > 80);
    let sessions = lists::sessions();
    let answers = sessions.iter().flat_map(|session| session.steps());
    assert!(answers.filter(|step| step.answer.piece > 0).count() > 100);
}

/// A sample's piece is that of a record of the winning cause, from the age, for a threshold that is drawn.
#[test]
fn pieces_of_samples() {
    let mut random = Random::new(!SEED);
    let mut found = 0;
    for _ in 0..CASES / 10 {
        let case = SampleCase::random(&mut random);
        let (answer, _) = case.expected();
        if answer.censored || !answer.event {
            assert_eq!(answer.piece, 0, "{case:?}");
            continue;
        }
        let mut records = case.request.used().to_vec();
        records.sort_by_key(|record| record.cause);
        let drawn = &case.thresholds[case.position as usize..];
        let mut pieces = records
            .iter()
            .zip(drawn)
            .filter(|(record, _)| record.cause == answer.cause)
            .map(|(record, w)| by_the_rust(&record.hazard, case.request.age, *w));
        assert!(pieces.any(|p| p == u64::from(answer.piece)), "{case:?}");
        found += u32::from(answer.piece > 0);
    }
    assert!(found > 5000, "{found}");
}
