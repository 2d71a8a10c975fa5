//! How many random evaluations and samples show each sort of piece (document 02, change 6).

use crate::evaluations::EvaluationCase;
use reference::answer::Answer;
use reference::evaluation::{Evaluation, INVERT_CUMULATIVE_HAZARD};
use reference::hazard::PIECEWISE;
use std::fmt::{Display, Formatter, Result};

/// A count for each sort.
#[derive(Default)]
pub struct PieceTally {
    /// Inversions with a piece other than 0, and those of them in the trailing piece.
    above_zero: u64,
    trailing: u64,
    /// Inversions of a curve with an infinite wait.
    infinite: u64,
    /// Inversions whose start and wait, as rounded, lie past the pair used.
    past_the_end: u64,
    /// Samples with a piece other than 0.
    samples: u64,
}

impl PieceTally {
    pub fn add_evaluation(&mut self, case: &EvaluationCase, answer: &Evaluation) {
        let curve = case.operation == INVERT_CUMULATIVE_HAZARD && case.hazard.kind == PIECEWISE;
        if !curve || answer.number != 0 {
            return;
        }
        let above_zero = answer.piece > 0;
        let trailing = above_zero && answer.piece == u64::from(case.hazard.count);
        self.above_zero += u64::from(above_zero);
        self.trailing += u64::from(trailing);
        self.infinite += u64::from(answer.value.is_infinite());
        self.past_the_end += u64::from(ends_past(case, answer));
    }

    pub fn add_sample(&mut self, answer: &Answer) {
        self.samples += u64::from(answer.piece > 0);
    }

    fn sorts(&self) -> [(u64, &'static str); 5] {
        [
            (self.above_zero, "inversions with a piece above 0"),
            (self.trailing, "in the trailing one"),
            (self.infinite, "infinite waits of a curve"),
            (self.past_the_end, "waits that end past the pair used"),
            (self.samples, "samples with a piece above 0"),
        ]
    }

    /// The least count, with the sort that has it.
    pub fn least(&self) -> (u64, &'static str) {
        let [first, others @ ..] = self.sorts();
        others
            .into_iter()
            .fold(first, |least, other| least.min(other))
    }
}

/// Start and wait, as rounded, lie past the end of the pair used.
pub fn ends_past(case: &EvaluationCase, answer: &Evaluation) -> bool {
    let used = case.hazard.used().get(answer.piece as usize);
    let end = case.t.max(0.0) + answer.value;
    case.w > 0.0 && used.is_some_and(|pair| end.is_finite() && end > pair.end)
}

impl Display for PieceTally {
    fn fmt(&self, f: &mut Formatter<'_>) -> Result {
        let sorts = self.sorts().map(|(count, name)| format!("{count} {name}"));
        write!(f, "{}", sorts.join(", "))
    }
}
