//! What the tests of the lists share.

/// FNV-1a. A new value in a test means that a list has changed and has to be written again.
pub fn checksum(bytes: &[u8]) -> u64 {
    bytes.iter().fold(0xCBF2_9CE4_8422_2325, |hash, byte| {
        (hash ^ u64::from(*byte)).wrapping_mul(0x0000_0100_0000_01B3)
    })
}

pub fn numbers(tally: &cases::tally::Tally) -> Vec<u8> {
    tally.refusals.keys().copied().collect()
}
