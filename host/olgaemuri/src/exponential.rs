//! Thresholds from a seed.

use crate::logarithm::natural_logarithm;
use crate::philox::block;

/// Thresholds drawn from the exponential distribution with mean 1, the same to the last bit on every machine.
///
/// Threshold `n` of a stream is -ln u, where u is (2 m + 1) / 2^53 and m the upper 52 bits of a random number: word `n % 4` of
/// Philox4x64-10's block with the counter `[n / 4, stream, 0, 0]` and the key `[seed, 0]`. Streams of one seed share no block. The
/// logarithm is made of IEEE 754's own operations. Every threshold is above 0 and below 37, so no draw refuses it.
///
/// ```
/// use olgaemuri::Exponential;
///
/// let first: Vec<f64> = Exponential::new(1, 0).take(2).collect();
/// assert_eq!(first, [0.22953728848574126, 0.449543599574007]);
/// let other: Vec<f64> = Exponential::new(1, 1).take(2).collect();
/// assert_ne!(first, other);
/// ```
#[derive(Clone, Debug)]
pub struct Exponential {
    seed: u64,
    stream: u64,
    next: u64,
    block: [u64; 4],
}

impl Exponential {
    /// The thresholds of a stream, from its first on.
    #[must_use]
    pub fn new(seed: u64, stream: u64) -> Self {
        Self {
            seed,
            stream,
            next: 0,
            block: [0; 4],
        }
    }
}

/// Endless: 2^64 thresholds, then the first one again.
impl Iterator for Exponential {
    type Item = f64;

    fn next(&mut self) -> Option<f64> {
        let word = (self.next % 4) as usize;
        if word == 0 {
            self.block = block([self.next / 4, self.stream, 0, 0], [self.seed, 0]);
        }
        self.next = self.next.wrapping_add(1);
        Some(threshold(self.block[word]))
    }
}

/// The threshold of a random number.
fn threshold(random: u64) -> f64 {
    let odd = 2 * (random >> 12) + 1;
    // both exact: the numerator has 53 bits, the denominator is a power of two
    -natural_logarithm(odd as f64 / (1u64 << 53) as f64)
}

#[cfg(test)]
mod tests {
    use super::*;

    #[test]
    fn every_threshold_can_be_drawn() {
        let (most, least) = (threshold(0), threshold(u64::MAX));
        assert_eq!(least, f64::EPSILON / 2.0);
        assert!((36.7..36.8).contains(&most), "{most}");
    }
}
