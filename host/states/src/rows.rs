//! A state in the engine's rows, between them and a state's record.

use crate::layout::{Field, HAZARD_KIND, Kind, Layout, Place};
use olgaemuri_sys::{STATE_FLOAT_ROWS, STATE_WORD_ROWS};
use reference::hazard::ZERO;
use reference::record::STATE_BYTES;

/// 177 rows of eight words and 400 of eight floats.
#[derive(Clone, Debug)]
pub struct Rows {
    pub words: Vec<[u64; 8]>,
    pub floats: Vec<[f64; 8]>,
}

impl Rows {
    /// The same word everywhere, and the float of its bits.
    pub fn filled(word: u64) -> Self {
        Self {
            words: vec![[word; 8]; STATE_WORD_ROWS],
            floats: vec![[f64::from_bits(word); 8]; STATE_FLOAT_ROWS],
        }
    }

    /// The rows of a record's state.
    pub fn of(layout: &Layout, record: &[u8]) -> Self {
        let mut rows = Self::filled(0);
        let fields = layout.fields.iter();
        fields.for_each(|f| rows.put(f.place, f.bits(record)));
        rows
    }

    /// The record of the rows' state; a word that a byte does not hold is 255 there.
    pub fn record(&self, layout: &Layout) -> Vec<u8> {
        let mut record = vec![0; STATE_BYTES];
        for f in &layout.fields {
            let most = if f.kind == Kind::Byte { 255 } else { u64::MAX };
            let bytes = self.bits(f.place).min(most).to_le_bytes();
            let width = f.kind.width();
            record[f.at..][..width].copy_from_slice(&bytes[..width]);
        }
        record
    }

    /// The word, or the float's bits.
    pub fn bits(&self, place: Place) -> u64 {
        match place {
            Place::Word(row, at) => self.words[row][at],
            Place::Float(row, at) => self.floats[row][at].to_bits(),
        }
    }

    pub fn put(&mut self, place: Place, bits: u64) {
        match place {
            Place::Word(row, at) => self.words[row][at] = bits,
            Place::Float(row, at) => self.floats[row][at] = f64::from_bits(bits),
        }
    }

    /// The same bits in every number.
    pub fn is_same(&self, other: &Rows) -> bool {
        let floats = self.floats.iter().flatten();
        let others = other.floats.iter().flatten();
        let same = |(a, b): (&f64, &f64)| a.to_bits() == b.to_bits();
        self.words == other.words
            && self.floats.len() == other.floats.len()
            && floats.zip(others).all(same)
    }

    /// Whether the rows are coded as a state's: flags, choices and numbers of 8 and 32 bits within their bounds, zero in every spare place,
    /// and no rate beside the kind that has none.
    pub fn is_coded(&self, layout: &Layout) -> bool {
        let zero = |place: &Place| self.bits(*place) == 0;
        layout.spare.iter().all(zero)
            && layout.fields.iter().all(|f| self.is_within(f))
            && self.kinds_coded(layout)
    }

    fn is_within(&self, field: &Field) -> bool {
        let bits = self.bits(field.place);
        match field.kind {
            Kind::Flag => bits < 2,
            Kind::Choice(choices) => bits < u64::from(choices),
            Kind::Word8 => bits <= u64::from(u8::MAX),
            Kind::Word32 => bits <= u64::from(u32::MAX),
            Kind::Byte | Kind::Word64 | Kind::Float => true,
        }
    }

    /// In the order of the fields a channel's own rate comes after its kind.
    fn kinds_coded(&self, layout: &Layout) -> bool {
        let pairs = layout.fields.windows(2);
        let mut kinds = pairs.filter(|two| two[0].kind == HAZARD_KIND);
        kinds.all(|two| self.bits(two[0].place) != u64::from(ZERO) || self.bits(two[1].place) == 0)
    }
}

#[cfg(test)]
mod tests {
    use super::*;

    #[test]
    fn a_record_comes_back() {
        let layout = Layout::new();
        let record: Vec<u8> = (0..STATE_BYTES).map(|i| (i * 7 % 251) as u8).collect();
        assert_eq!(Rows::of(&layout, &record).record(&layout), record);
    }

    #[test]
    fn what_is_not_coded() {
        let layout = Layout::new();
        let opened = Rows::filled(0);
        assert!(opened.is_coded(&layout));
        let with = |place, bits| {
            let mut rows = opened.clone();
            rows.put(place, bits);
            rows.is_coded(&layout)
        };
        let minus_zero = (-0.0f64).to_bits();
        assert!(with(Place::Word(0, 0), 1) && !with(Place::Word(0, 0), 2));
        assert!(with(Place::Word(2, 2), 4) && !with(Place::Word(2, 2), 5));
        assert!(with(Place::Word(161, 3), 0xFFFF_FFFF) && !with(Place::Word(161, 3), 1 << 32));
        assert!(with(Place::Word(1, 5), 255) && !with(Place::Word(1, 5), 256));
        assert!(!with(Place::Word(160, 4), 1) && !with(Place::Float(0, 3), minus_zero));
        assert!(!with(Place::Float(1, 3), minus_zero) && with(Place::Float(1, 2), minus_zero));
    }
}
