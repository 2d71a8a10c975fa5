//! How many random evaluations and samples show each sort of hazard kind 4 (document 02, change 4).

use crate::evaluations::EvaluationCase;
use crate::samples::SampleCase;
use reference::answer::Answer;
use reference::evaluation::{Evaluation, INVERT_CUMULATIVE_HAZARD};
use reference::fields::LIMIT;
use reference::hazard::{SMALLEST_SCALE, WEIBULL};
use std::fmt::{Display, Formatter, Result};

/// The number of the answer, a name, and what else holds of an evaluation of kind 4.
type Sort = (u8, &'static str, fn(&EvaluationCase, &Evaluation) -> bool);

const SORTS: [Sort; 9] = [
    (0, "accepted", |_, _| true),
    (0, "with a scale at most 0", |case, _| {
        case.hazard.first <= 0.0
    }),
    (0, "with scale 2^-40", |case, _| {
        case.hazard.first == SMALLEST_SCALE
    }),
    (0, "with scale 2^40", |case, _| case.hazard.first == LIMIT),
    (0, "waits above 0", |case, answer| {
        is_wait(case) && answer.value > 0.0
    }),
    (
        0,
        "waits for a w above 0 that end at the start",
        |case, _| is_wait(case) && end(case) == case.t,
    ),
    (0, "that would end before it", |case, _| {
        is_wait(case) && end(case) < case.t
    }),
    (5, "refused by 5 for a small scale", |case, _| {
        case.hazard.first > 0.0 && case.hazard.first < SMALLEST_SCALE
    }),
    (6, "refused by 6", |_, _| true),
];

/// An inversion with something to wait for.
fn is_wait(case: &EvaluationCase) -> bool {
    case.operation == INVERT_CUMULATIVE_HAZARD && case.hazard.first > 0.0 && case.w > 0.0
}

/// Scale times root.
fn end(case: &EvaluationCase) -> f64 {
    let q = case.t.max(0.0) / case.hazard.first;
    case.hazard.first * (q * q + case.w).sqrt()
}

/// A count for each sort, and how many samples kind 4 wins after a wait.
#[derive(Default)]
pub struct WeibullTally {
    sorts: [u64; SORTS.len()],
    wins: u64,
}

impl WeibullTally {
    pub fn add_evaluation(&mut self, case: &EvaluationCase, answer: &Evaluation) {
        for (count, (number, _, also)) in self.sorts.iter_mut().zip(SORTS) {
            let is_of_it = answer.number == number && case.hazard.kind == WEIBULL;
            *count += u64::from(is_of_it && also(case, answer));
        }
    }

    pub fn add_sample(&mut self, case: &SampleCase, answer: &Answer) {
        let mut records = case.request.used().iter();
        let won = records.any(|r| r.cause == answer.cause && r.hazard.kind == WEIBULL);
        let by_kind_4 = won && answer.event && !answer.censored && answer.delta > 0.0;
        self.wins += u64::from(by_kind_4);
    }

    /// The least count, with the sort that has it.
    pub fn least(&self) -> (u64, &'static str) {
        let names = SORTS.iter().map(|(_, name, _)| *name);
        let counts = self.sorts.into_iter().zip(names);
        let wins = (self.wins, "that wins a sample");
        counts.fold(wins, |least, other| least.min(other))
    }
}

impl Display for WeibullTally {
    fn fmt(&self, f: &mut Formatter<'_>) -> Result {
        write!(f, "of kind 4 ")?;
        for (count, (_, name, _)) in self.sorts.iter().zip(SORTS) {
            write!(f, "{count} {name}, ")?;
        }
        write!(f, "{} samples won", self.wins)
    }
}
