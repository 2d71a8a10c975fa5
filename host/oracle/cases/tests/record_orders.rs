//! Document 02, change 8, of the unchanged Rust: the order of the records does not matter where all causes are different, and what is
//! said of an answer holds.

use cases::order_claims::{broken, exact_sum};
use cases::random::Random;
use cases::record_orders::{self, case, causes_differ, censored_at, constant, one_plus};
use cases::samples::SampleCase;
use cases::tally;
use reference::answer::Answer;
use reference::request::CENSORED_CAUSE;
use std::cmp::Ordering;

const SEED: u64 = 0x6F72_6465_7273_2038;

#[test]
fn worked_lists() {
    for (case, answer) in record_orders::worked() {
        let after = u64::from(case.request.n);
        assert_eq!(case.expected(), (answer, after), "{case:?}");
        assert_eq!(broken(&case, &answer), None, "{case:?}");
    }
}

#[test]
fn random_lists_in_random_orders() {
    let mut random = Random::new(SEED);
    let (mut lists, mut moved) = (Vec::new(), 0);
    for _ in 0..20_000 {
        let case = record_orders::with_different_causes(&mut random);
        assert!(causes_differ(&case.request), "{case:?}");
        let expected = case.expected();
        let other = record_orders::in_another_order(&mut random, &case);
        assert_eq!(other.expected(), expected, "{case:?}\n{other:?}");
        if expected.0.number == 0 {
            assert_eq!(broken(&case, &expected.0), None, "{case:?}");
        }
        moved += usize::from(other.request != case.request);
        lists.push(case);
    }
    assert!(
        moved > 14_000,
        "{moved} lists in another order than their own"
    );
    let tally = tally::samples(&lists);
    for answer in ["censored", "events", "no event"] {
        assert!(tally.answers[answer] > 1000, "{tally}");
    }
    assert!(tally.inputs["decided by the tie choice"] > 2000, "{tally}");
    let refused: Vec<u8> = tally.refusals.keys().copied().collect();
    assert_eq!(refused, [1, 4, 5, 6, 7, 10, 15, 16], "{tally}");
}

/// With one cause twice the list's order is the order of the draws.
#[test]
fn repeated_causes_where_the_order_matters() {
    let (slow, fast) = (constant(1, 0, 1.0), constant(1, 0, 2.0));
    let list = case(&[slow, fast], 0, 0.0, &[1.0, 4.0]);
    let turned = case(&[fast, slow], 0, 0.0, &[1.0, 4.0]);
    assert!(!causes_differ(&list.request));
    assert_eq!(list.expected(), (Answer::event(1, 1.0), 2));
    assert_eq!(turned.expected(), (Answer::event(1, 0.5), 2));
}

/// Age 1.5 u, censor age 1 + 3 u, wait 1 + 2 u: uncensored, and after the censor age.
#[test]
fn rounded_difference() {
    let age = 1.5 * (one_plus(1) - 1.0);
    let (wait, censor) = (one_plus(2), one_plus(3));
    let list = censored_at(case(&[constant(1, 0, 1.0)], 0, age, &[wait]), censor);
    assert_eq!(list.expected().0, Answer::event(1, wait));
    assert_eq!(exact_sum(age, wait, censor), Ordering::Greater);
    assert_eq!(age + wait, one_plus(4));
    assert_eq!(censor - age, wait);
}

#[test]
fn exact_sums() {
    let u = one_plus(1) - 1.0;
    assert_eq!(exact_sum(1.0, u / 2.0, 1.0), Ordering::Greater);
    assert_eq!(exact_sum(one_plus(1), u / 2.0, one_plus(2)), Ordering::Less);
    assert_eq!(exact_sum(1.0, u, one_plus(1)), Ordering::Equal);
    assert_eq!(exact_sum(f64::MAX, f64::MAX, 1.0), Ordering::Greater);
}

/// Each sentence is broken by a wrong answer.
#[test]
fn wrong_answers() {
    let causes = [constant(1, 0, 1.0), constant(2, 7, 1.0)];
    let list = |tie: u8, waits: &[f64; 2]| case(&causes, tie, 1.0, waits);
    let none = Answer::default();
    let censored = Answer::event(CENSORED_CAUSE, 1.0);
    let empty = censored_at(case(&[], 0, 1.0, &[]), 2.0);
    let never = censored_at(case(&[constant(1, 0, 0.0)], 0, 1.0, &[1.0]), 2.0);
    // the exact sum is below the censor age, the rounded one is not
    let u = one_plus(1) - 1.0;
    let close = case(&causes[..1], 0, 0.75 * u, &[1.0]);
    let close = censored_at(close, one_plus(1));
    let wrong: [(SampleCase, Answer, &str); 11] = [
        (
            close,
            Answer::event(CENSORED_CAUSE, 1.0),
            "leaves a candidate",
        ),
        (list(0, &[1.0, 2.0]), none, "no event with a candidate"),
        (never, none, "no event with a candidate"),
        (list(0, &[1.0, 2.0]), censored, "without a censor age"),
        (empty, censored, "an empty list"),
        (
            censored_at(list(0, &[1.0, 2.0]), 2.5),
            Answer::event(CENSORED_CAUSE, 1.5),
            "leaves a candidate",
        ),
        (list(0, &[1.0, 2.0]), Answer::event(1, 2.0), "no candidate"),
        (list(0, &[1.0, 2.0]), Answer::event(2, 2.0), "earlier"),
        (list(0, &[1.0, 1.0]), Answer::event(2, 1.0), "preferred"),
        (list(2, &[1.0, 1.0]), Answer::event(1, 1.0), "preferred"),
        (
            censored_at(list(0, &[1.0, 2.0]), 1.5),
            Answer::event(1, 1.0),
            "after a censor age",
        ),
    ];
    for (case, answer, words) in wrong {
        let sentence = broken(&case, &answer);
        assert!(
            sentence.is_some_and(|said| said.contains(words)),
            "{sentence:?} for {case:?}"
        );
    }
}
