//! Kind 4 (document 02, change 4) as the Rust's own sampler is given it, and the waits at which a rounding decides.

use cases::evaluations::EvaluationCase;
use cases::floats::style;
use cases::hazards::age;
use cases::random::Random;
use cases::samples::SampleCase;
use cases::weibull;
use cases::weibull_tally::WeibullTally;
use reference::hazard::Hazard;

const SEED: u64 = 0x6775_6964_6572_6169;
const WAITS: usize = 100_000;

/// A hazard, an age and a w that are accepted.
fn inversions() -> impl Iterator<Item = (Hazard, f64, f64)> {
    let mut random = Random::new(SEED);
    let inversion = move || {
        let style = style(&mut random);
        let hazard = weibull::hazard(&mut random, style);
        let age = age(&mut random, &hazard, style);
        (hazard, age, weibull::w(&mut random, &hazard, age, style))
    };
    std::iter::repeat_with(inversion).take(WAITS)
}

#[test]
fn the_pieces_have_the_same_wait() {
    for (hazard, age, w) in inversions() {
        let weibull = hazard.weibull().expect("kind 4");
        let wait = weibull.invert_cumulative_hazard(age, w);
        let given = weibull.as_pieces(age, w).invert_cumulative_hazard(age, w);
        let bits = |wait: Option<f64>| wait.map(f64::to_bits);
        assert_eq!(bits(given), bits(wait), "{hazard:?} {age:e} {w:e}");
    }
}

/// The product of scale and root falls below the age, to it, and just above it; scale * (s - q) would give another wait.
#[test]
fn waits_of_every_sort() {
    let mut sorts = [0; 4];
    for (hazard, age, w) in inversions().filter(|(h, _, w)| h.first > 0.0 && *w > 0.0) {
        let scale = hazard.first;
        let q = age / scale;
        let s = (q * q + w).sqrt();
        let end = scale * s;
        sorts[0] += u32::from(end < age);
        sorts[1] += u32::from(end == age);
        sorts[2] += u32::from(end > age && end.to_bits() - age.to_bits() < 4);
        sorts[3] += u32::from(end > age && end - age != scale * (s - q));
    }
    assert!(sorts.iter().all(|count| *count > 500), "{sorts:?}");
}

/// Every sort is among the random evaluations and samples, and a tally without them says which is missing.
#[test]
fn evaluations_and_samples_of_every_sort() {
    let mut random = Random::new(SEED);
    let mut tally = WeibullTally::default();
    assert_eq!(tally.least().0, 0);
    for _ in 0..WAITS {
        let case = EvaluationCase::random(&mut random);
        tally.add_evaluation(&case, &case.expected());
        let case = SampleCase::random(&mut random);
        tally.add_sample(&case, &case.expected().0);
    }
    assert!(tally.least().0 >= 50, "{tally}");
}
