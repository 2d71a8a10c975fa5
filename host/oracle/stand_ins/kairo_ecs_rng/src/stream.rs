//! The recorded threshold stream and the draw position in it.

use crate::RNG_DISTRIBUTION_PROVENANCE_V1;
use rand_distr::{Distribution, ThresholdSource};

/// Each whole 8 bytes of the stream are one threshold.
pub const THRESHOLD_BYTES: usize = 8;

/// Draws from recorded thresholds. A caller tests beforehand that every draw can be made.
#[derive(Clone, Debug)]
pub struct DeterministicStream<'a> {
    bytes: &'a [u8],
    position: u64,
}

impl<'a> DeterministicStream<'a> {
    pub fn new(bytes: &'a [u8], position: u64) -> Self {
        Self { bytes, position }
    }

    /// How many thresholds the bytes hold; bytes after the last whole 8 do not count.
    pub fn len(&self) -> u64 {
        (self.bytes.len() / THRESHOLD_BYTES) as u64
    }

    pub fn is_empty(&self) -> bool {
        self.len() == 0
    }

    /// The index of the threshold that the next draw gives.
    pub fn position(&self) -> u64 {
        self.position
    }

    /// The threshold at an index, if there is one. Nothing is drawn.
    pub fn threshold(&self, index: u64) -> Option<f64> {
        let start = usize::try_from(index).ok()?.checked_mul(THRESHOLD_BYTES)?;
        let bytes = self.bytes.get(start..)?.first_chunk()?;
        Some(f64::from_le_bytes(*bytes))
    }

    pub fn sample<T, D: Distribution<T>>(&mut self, distribution: D) -> T {
        distribution.sample(self)
    }

    pub fn distribution_provenance(&self) -> &str {
        RNG_DISTRIBUTION_PROVENANCE_V1
    }

    /// Named by the legacy draws only, which are not carried.
    pub fn next_u64(&mut self) -> u64 {
        unreachable!("words are not recorded, only thresholds")
    }
}

impl ThresholdSource for DeterministicStream<'_> {
    fn next_threshold(&mut self) -> f64 {
        let drawn = self.threshold(self.position);
        self.position += 1;
        drawn.expect("a draw past the end of the recorded thresholds")
    }
}
