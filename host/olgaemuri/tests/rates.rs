//! The rate for a wait: worked numbers, and that a session with that rate has its breakdown after that wait.

mod common;

use common::{Random, create, reschedule, set};
use olgaemuri::{Policy, Refusal, Session, rate_for_wait};

/// 2^40, the longest wait and the largest rate.
const MOST: f64 = 1_099_511_627_776.0;

#[test]
fn worked_numbers() {
    let cases = [
        (2.0, 4.0, Ok(0.5)),
        (1.0, 5.0, Ok(0.19999999999999998)),
        (1.0, 49.0, Err(Refusal::NoRate)),
        (1e-323, 2.0, Ok(5e-324)),
        (5e-324, 2.0, Err(Refusal::NoRate)),
        (2f64.powi(-1021).next_down(), 2.0, Err(Refusal::NoRate)),
        (1024.0, 1.0 / MOST, Err(Refusal::NoRate)),
        (1.0, 1.0 / MOST, Ok(MOST)),
        (0.0, 4.0, Err(Refusal::OutsideLimits)),
        (2.0, f64::NAN, Err(Refusal::OutsideLimits)),
    ];
    for (threshold, wait, expected) in cases {
        assert_eq!(
            rate_for_wait(threshold, wait),
            expected,
            "{threshold} {wait}"
        );
    }
}

/// How long a cause waits that is set at time 0 with this constant rate and draws this threshold.
fn waited(threshold: f64, rate: f64) -> f64 {
    let mut session = Session::new([threshold]);
    session.extend([create(Policy::Restart), set(1, rate, 0.0), reschedule(0.0)]);
    let answer = session.run().steps[2].answer;
    assert!(answer.event && !answer.censored, "{threshold} {rate}");
    answer.delta
}

/// A number of any size within these powers of two.
fn between(random: &mut Random, least: i32, most: i32) -> f64 {
    let exponent = least + random.below((most - least) as u64) as i32;
    let fraction = random.word() >> 12;
    f64::from_bits(1f64.to_bits() | fraction) * 2f64.powi(exponent)
}

#[test]
fn a_cause_with_that_rate_breaks_down_after_that_wait() {
    for (threshold, wait) in [(2.0, 4.0), (1.0, 5.0), (1e-323, 2.0), (1.0, 1.0 / MOST)] {
        let rate = rate_for_wait(threshold, wait).expect("a rate");
        assert_eq!(waited(threshold, rate), wait);
    }
    let mut random = Random(20261116);
    let mut found = 0;
    for _ in 0..4_000 {
        let (threshold, wait) = (between(&mut random, -20, 10), between(&mut random, -29, 40));
        match rate_for_wait(threshold, wait) {
            Ok(rate) => {
                found += 1;
                assert_eq!(waited(threshold, rate), wait, "{threshold} {wait}");
                assert!(
                    waited(threshold, rate.next_down()) > wait,
                    "{threshold} {wait}"
                );
            }
            Err(refusal) => assert_eq!(refusal, Refusal::NoRate),
        }
    }
    assert!((1_000..3_900).contains(&found), "{found}");
}
