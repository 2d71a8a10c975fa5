//! The times of a machine's breakdowns by one cause: mean and quantiles in bounded memory.

use std::collections::BTreeMap;

/// So many times are kept as they are; of more only counts are.
const KEPT: usize = 1 << 16;

/// Bits of a time that do not matter where only counts are kept: 10 bits of its mantissa do, so that times counted together differ
/// by less than a thousandth.
const DROPPED_BITS: u32 = 42;

/// Times that are not below 0, in the order in which they came.
#[derive(Clone, Debug)]
pub struct Times {
    count: u64,
    sum: f64,
    most: f64,
    kept: Kept,
}

#[derive(Clone, Debug)]
enum Kept {
    All(Vec<f64>),
    /// The least of times that are counted together, and how many there are, by the bits that matter.
    Counts(BTreeMap<u64, (f64, u64)>),
}

impl Default for Times {
    fn default() -> Self {
        Self {
            count: 0,
            sum: 0.0,
            most: 0.0,
            kept: Kept::All(Vec::new()),
        }
    }
}

impl Times {
    pub fn push(&mut self, time: f64) {
        self.count += 1;
        self.sum += time;
        self.most = self.most.max(time);
        match &mut self.kept {
            Kept::All(times) if times.len() < KEPT => times.push(time),
            Kept::All(times) => {
                let mut counts = BTreeMap::new();
                let all = times.iter().chain([&time]);
                all.for_each(|time| count(&mut counts, *time));
                self.kept = Kept::Counts(counts);
            }
            Kept::Counts(counts) => count(counts, time),
        }
    }

    pub fn count(&self) -> u64 {
        self.count
    }

    pub fn mean(&self) -> f64 {
        self.sum / self.count as f64
    }

    pub fn most(&self) -> f64 {
        self.most
    }

    /// For each share, ascending, the least time that at least this share of the times does not exceed. A share is of a hundred.
    pub fn quantiles<const N: usize>(&self, shares: [u64; N]) -> [f64; N] {
        let counted: Vec<(f64, u64)> = match &self.kept {
            Kept::Counts(counts) => counts.values().copied().collect(),
            Kept::All(times) => {
                let mut times = times.clone();
                times.sort_by(f64::total_cmp);
                times.into_iter().map(|time| (time, 1)).collect()
            }
        };
        let mut counted = counted.into_iter();
        let (mut least, mut below) = (0.0, 0);
        shares.map(|share| {
            let wanted = (u128::from(self.count) * u128::from(share)).div_ceil(100);
            while u128::from(below) < wanted.max(1) {
                let Some((time, count)) = counted.next() else {
                    break;
                };
                (least, below) = (time, below + count);
            }
            least
        })
    }
}

fn count(counts: &mut BTreeMap<u64, (f64, u64)>, time: f64) {
    let place = counts.entry(time.to_bits() >> DROPPED_BITS);
    let (least, count) = place.or_insert((time, 0));
    (*least, *count) = (least.min(time), *count + 1);
}

#[cfg(test)]
mod tests {
    use super::*;

    fn times(times: impl IntoIterator<Item = f64>) -> Times {
        let mut all = Times::default();
        times.into_iter().for_each(|time| all.push(time));
        all
    }

    #[test]
    fn few_times() {
        let few = times([4.0, 1.0, 3.0, 2.0]);
        assert_eq!((few.count(), few.mean(), few.most()), (4, 2.5, 4.0));
        assert_eq!(
            few.quantiles([0, 25, 26, 50, 75, 76, 100]),
            [1.0, 1.0, 2.0, 2.0, 3.0, 4.0, 4.0]
        );
        assert_eq!(times([7.0]).quantiles([0, 50, 100]), [7.0; 3]);
    }

    /// Times from 0 to 1000 in an order of no kind, so many.
    fn many(count: u64) -> Vec<f64> {
        let places = (0..count).map(|n| (n.wrapping_mul(0x9e37_79b9_7f4a_7c15) >> 11) as f64);
        places
            .map(|place| place * 1000.0 / (1u64 << 53) as f64)
            .collect()
    }

    #[test]
    fn quantiles_are_exact_up_to_a_limit_and_near_beyond() {
        let shares = [0, 1, 5, 25, 50, 75, 95, 99];
        for (count, off) in [(KEPT, 0.0), (KEPT + 1, 1e-3), (4 * KEPT, 1e-3)] {
            let all = many(count as u64);
            let found = times(all.iter().copied()).quantiles(shares);
            let mut sorted = all;
            sorted.sort_by(f64::total_cmp);
            for (share, found) in shares.into_iter().zip(found) {
                let exact = sorted[(count * share as usize).div_ceil(100).max(1) - 1];
                assert!(
                    found <= exact && found >= exact * (1.0 - off),
                    "{share}: {found}, {exact}"
                );
                assert!(sorted.contains(&found));
            }
        }
    }

    #[test]
    fn the_order_does_not_matter_to_quantiles() {
        let all = many(2 * KEPT as u64);
        let (one, other) = (times(all.iter().copied()), times(all.iter().rev().copied()));
        assert_eq!(one.quantiles([5, 50, 95]), other.quantiles([5, 50, 95]));
    }
}
