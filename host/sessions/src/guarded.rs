//! A buffer between guard bytes, which nobody may touch.

/// Bytes on each side of the buffer.
const GUARD: usize = 64;
const GUARD_BYTE: u8 = 0x3C;

pub struct Guarded(Vec<u8>);

impl Guarded {
    pub fn new(length: usize, fill: u8) -> Self {
        let mut bytes = vec![GUARD_BYTE; length + 2 * GUARD];
        bytes[GUARD..GUARD + length].fill(fill);
        Self(bytes)
    }

    pub fn inner(&mut self) -> &mut [u8] {
        let end = self.0.len() - GUARD;
        &mut self.0[GUARD..end]
    }

    /// The buffer, or none where a guard byte was written.
    pub fn into_inner(self) -> Option<Vec<u8>> {
        let (front, rest) = self.0.split_at(GUARD);
        let (inner, back) = rest.split_at(rest.len() - GUARD);
        let untouched = front.iter().chain(back).all(|byte| *byte == GUARD_BYTE);
        untouched.then(|| inner.to_vec())
    }
}

#[cfg(test)]
mod tests {
    use super::*;

    #[test]
    fn a_guard_byte_that_is_written_is_seen() {
        let mut kept = Guarded::new(3, 7);
        kept.inner()[2] = 1;
        assert_eq!(kept.into_inner(), Some(vec![7, 7, 1]));
        for at in [GUARD - 1, GUARD + 3] {
            let mut written = Guarded::new(3, 7);
            written.0[at] = 0;
            assert_eq!(written.into_inner(), None);
        }
    }
}
