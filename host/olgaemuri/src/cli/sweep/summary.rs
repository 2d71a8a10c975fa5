//! What a sweep came to, for each machine and cause, from its rows in the order of the streams.

use super::times::Times;
use std::collections::BTreeMap;

/// How many runs there were, what broke down when, and what was refused.
#[derive(Clone, Debug, Default)]
pub struct Summary {
    /// The first stream.
    pub first: u64,
    pub runs: u64,
    /// For each refusal's number how many commands it refused, and in how many runs.
    pub refusals: BTreeMap<u8, (u64, u64)>,
    /// By machine and cause; the end of observation has the greatest number of a cause.
    pub lines: BTreeMap<(u8, u32), Line>,
}

/// The breakdowns of a machine by one cause.
#[derive(Clone, Debug, Default)]
pub struct Line {
    pub machine_name: String,
    pub cause_name: String,
    /// In how many runs there were any.
    pub runs: u64,
    /// Of how many runs it knows.
    seen: u64,
    pub times: Times,
}

/// The refused commands of a run: numbers, and how often each.
pub type Refusals = Vec<(u8, u64)>;

impl Summary {
    /// A run begins.
    pub fn run(&mut self, stream: u64, refusals: &Refusals) {
        if self.runs == 0 {
            self.first = stream;
        }
        self.runs += 1;
        for (number, times) in refusals {
            let (commands, runs) = self.refusals.entry(*number).or_default();
            (*commands, *runs) = (*commands + times, *runs + 1);
        }
    }

    /// A breakdown in the run that began last. The names of machine and cause are asked for once.
    pub fn breakdown(&mut self, key: (u8, u32), time: f64, names: impl FnOnce() -> [String; 2]) {
        let line = self.lines.entry(key).or_insert_with(|| {
            let [machine_name, cause_name] = names();
            Line {
                machine_name,
                cause_name,
                ..Line::default()
            }
        });
        line.runs += u64::from(line.seen < self.runs);
        line.seen = self.runs;
        line.times.push(time);
    }

    /// In how many runs thresholds ran out.
    pub fn ran_out(&self) -> u64 {
        self.refusals.get(&15).map_or(0, |refused| refused.1)
    }
}
