//! One run of a sweep: the session over the thresholds of a stream.

use super::rows::rows;
use super::summary::Refusals;
use crate::cli::events::{Event, breakdowns, events};
use olgaemuri::text::Names;
use olgaemuri::{Command, Exponential, Input, Session};
use std::collections::BTreeMap;

/// What is run over every stream.
pub struct Template<'a> {
    pub session: &'a Session,
    pub names: &'a Names,
    pub seed: u64,
    /// Thresholds for each run.
    pub count: usize,
    /// Whether the rows are wanted.
    pub with_rows: bool,
}

pub struct Run {
    pub stream: u64,
    pub breakdowns: Vec<Event>,
    pub refusals: Refusals,
    pub rows: String,
}

impl Template<'_> {
    pub fn run(&self, stream: u64) -> Run {
        let thresholds = Exponential::new(self.seed, stream).take(self.count);
        let session = self
            .session
            .with_thresholds(thresholds.collect::<Vec<f64>>());
        let outcome = session.run();
        let breakdowns = breakdowns(&events(outcome));
        let mut refused = BTreeMap::new();
        for answer in outcome.answers().filter(|answer| !answer.is_accepted()) {
            *refused.entry(answer.number()).or_insert(0) += 1;
        }
        let refusals: Refusals = refused.into_iter().collect();
        let rows = if self.with_rows {
            rows(stream, &breakdowns, &refusals, self.names)
        } else {
            String::new()
        };
        Run {
            stream,
            breakdowns,
            refusals,
            rows,
        }
    }
}

/// How many SETs a session has. Each draws one threshold at most, and an UNDO gives it back, so no run draws more.
pub fn sets(session: &Session) -> usize {
    let is_set = |input: &Input| matches!(input.command(), Some(Command::Set { .. }));
    session
        .inputs()
        .iter()
        .filter(|input| is_set(input))
        .count()
}
