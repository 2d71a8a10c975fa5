//! Which runs a sweep makes.

use super::run::sets;
use crate::cli::arguments::Arguments;
use crate::cli::numbers::{needed, number};
use olgaemuri::Session;
use std::ops::Range;
use std::thread::available_parallelism;

/// The streams of a seed to run over, and how.
#[derive(Debug, PartialEq)]
pub struct Plan {
    pub seed: u64,
    pub streams: Range<u64>,
    /// Whether it is the first part, or the whole.
    pub is_first: bool,
    /// Thresholds for each run, where that is chosen.
    count: Option<u64>,
    pub threads: usize,
}

impl Plan {
    pub fn new(arguments: &Arguments) -> Result<Self, String> {
        let streams = needed(arguments, "--streams")?;
        let seed = needed(arguments, "--seed")?;
        let (part, of) = arguments.value("--shard").map_or(Ok((1, 1)), shard)?;
        let threads = match number(arguments, "--threads")? {
            Some(0) => return Err("`--threads` must be at least 1".to_string()),
            Some(threads) => usize::try_from(threads).unwrap_or(usize::MAX),
            None => available_parallelism().map_or(1, usize::from),
        };
        Ok(Self {
            seed,
            streams: part_of(streams, part, of),
            is_first: part == 1,
            count: number(arguments, "--count")?,
            threads: threads.min(MOST_THREADS),
        })
    }

    /// Thresholds for each run of a session: those chosen, or as many as it can draw, which is one for each SET.
    pub fn count(&self, session: &Session) -> usize {
        let sets = sets(session);
        let chosen = self
            .count
            .map(|count| usize::try_from(count).unwrap_or(usize::MAX));
        chosen.map_or(sets, |count| count.min(sets))
    }
}

/// More threads than these are of no use and may not be had.
const MOST_THREADS: usize = 1024;

/// I and OF of `I/OF`.
fn shard(text: &str) -> Result<(u64, u64), String> {
    let whole = |text: &str| text.parse().ok().filter(|number| *number > 0);
    let parts = text.split_once('/');
    let parts = parts.and_then(|(part, of)| Some((whole(part)?, whole(of)?)));
    parts
        .filter(|(part, of)| part <= of)
        .ok_or_else(|| format!("expected a part such as 1/4 or 4/4 behind `--shard`, not `{text}`"))
}

/// The streams of a part; the parts follow each other without a gap.
fn part_of(streams: u64, part: u64, of: u64) -> Range<u64> {
    let end = |part: u64| {
        let end = u128::from(streams) * u128::from(part) / u128::from(of);
        u64::try_from(end).unwrap_or(streams)
    };
    end(part - 1)..end(part)
}

#[cfg(test)]
mod tests {
    use super::*;

    #[test]
    fn parts_follow_each_other() {
        for streams in [0, 1, 7, 10_000, u64::MAX] {
            for of in [1, 2, 3, 64] {
                let parts = (1..=of).map(|part| part_of(streams, part, of));
                let end = parts.fold(0, |end, part| {
                    assert_eq!(part.start, end);
                    part.end
                });
                assert_eq!(end, streams);
            }
        }
    }

    #[test]
    fn parts_in_words() {
        assert_eq!(shard("3/4"), Ok((3, 4)));
        for text in ["", "3", "0/4", "5/4", "1/0", "-1/4", "1/4/2", "a/b"] {
            assert!(shard(text).is_err(), "{text}");
        }
    }
}
