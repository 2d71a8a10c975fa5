//! Recorded thresholds as bytes: a little-endian f64 each.

/// The thresholds' bytes.
#[must_use]
pub fn thresholds_to_bytes(thresholds: &[f64]) -> Vec<u8> {
    thresholds
        .iter()
        .flat_map(|threshold| threshold.to_le_bytes())
        .collect()
}

/// The thresholds with these bytes; none where their number is no multiple of 8.
#[must_use]
pub fn thresholds_from_bytes(bytes: &[u8]) -> Option<Vec<f64>> {
    let (whole, rest) = bytes.as_chunks();
    rest.is_empty().then(|| {
        whole
            .iter()
            .map(|threshold| f64::from_le_bytes(*threshold))
            .collect()
    })
}
