//! How many evaluations and samples of each sort a list holds.

use crate::evaluations::EvaluationCase;
use crate::samples::SampleCase;
use reference::evaluation::OPERATIONS;
use std::collections::BTreeMap;
use std::fmt::{Display, Formatter, Result};

type Counts<Name> = BTreeMap<Name, usize>;

/// Counts of inputs and of accepted answers by name, and of refusals by number.
#[derive(Debug, Default)]
pub struct Tally {
    pub inputs: Counts<&'static str>,
    pub answers: Counts<&'static str>,
    pub refusals: Counts<u8>,
}

pub fn count<Name: Ord>(counts: &mut Counts<Name>, name: Name) {
    *counts.entry(name).or_default() += 1;
}

fn words<Name: Display>(counts: &Counts<Name>) -> String {
    let words = counts.iter().map(|(name, n)| format!("{name}: {n}"));
    words.collect::<Vec<_>>().join(", ")
}

impl Display for Tally {
    fn fmt(&self, f: &mut Formatter<'_>) -> Result {
        let (inputs, answers) = (words(&self.inputs), words(&self.answers));
        write!(
            f,
            "{inputs}; {answers}; refused by {}",
            words(&self.refusals)
        )
    }
}

pub fn evaluations(cases: &[EvaluationCase]) -> Tally {
    let mut tally = Tally::default();
    for case in cases {
        count(&mut tally.inputs, OPERATIONS[usize::from(case.operation)]);
        let answer = case.expected();
        match (answer.number, answer.found) {
            (0, true) if answer.value.is_infinite() => count(&mut tally.answers, "infinite waits"),
            (0, true) if answer.value == 0.0 => count(&mut tally.answers, "values of zero"),
            (0, true) => count(&mut tally.answers, "other values"),
            (0, false) => count(&mut tally.answers, "no wait"),
            (number, _) => count(&mut tally.refusals, number),
        }
    }
    tally
}

pub fn samples(cases: &[SampleCase]) -> Tally {
    let mut tally = Tally::default();
    for case in cases {
        let (answer, _) = case.expected();
        match (answer.number, answer.event, answer.censored) {
            (0, true, true) => count(&mut tally.answers, "censored"),
            (0, true, false) => count(&mut tally.answers, "events"),
            (0, false, _) => count(&mut tally.answers, "no event"),
            (number, ..) => count(&mut tally.refusals, number),
        }
        if decided_by_tie(case) {
            count(&mut tally.inputs, "decided by the tie choice");
        }
    }
    tally
}

/// An event whose cause another tie choice would change.
pub fn decided_by_tie(case: &SampleCase) -> bool {
    let answer = case.expected().0;
    answer.event
        && (0..3).any(|tie| {
            let mut other = case.clone();
            other.request.tie = tie;
            other.expected().0 != answer
        })
}
