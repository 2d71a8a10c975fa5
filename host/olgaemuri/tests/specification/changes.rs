//! Which bytes of a record a field takes: by the document, and by two records that differ in that field alone.

use crate::document::number;
use std::ops::Range;

/// The bytes of a field by its two cells.
pub fn range(at: &str, width: &str) -> Range<usize> {
    number(at)..number(at) + number(width)
}

/// Two floats that differ in every byte.
pub fn floats() -> [f64; 2] {
    [0x1111_1111_1111_1111, 0x2222_2222_2222_2222].map(f64::from_bits)
}

/// From the first byte that differs to the last, all of which do.
pub fn changed(before: &[u8], after: &[u8]) -> Range<usize> {
    let differs: Vec<usize> = (0..before.len())
        .filter(|at| before[*at] != after[*at])
        .collect();
    let range = differs[0]..differs[differs.len() - 1] + 1;
    assert_eq!((before.len(), differs.len()), (after.len(), range.len()));
    range
}
