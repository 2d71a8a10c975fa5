//! Fields of fixed width, little-endian, and their ranges (document 01, refusal 5).

/// 2^40, the largest size of a time or a rate.
pub const LIMIT: f64 = 1_099_511_627_776.0;

/// A time (`now`, censor, age): sign bit clear, at most 2^40. NaN is not in range.
pub fn time_in_range(time: f64) -> bool {
    time.is_sign_positive() && time <= LIMIT
}

/// A rate, or the time and w of an evaluation: finite, at most 2^40 in size.
pub fn size_in_range(value: f64) -> bool {
    value.abs() <= LIMIT
}

/// All bits zero: what an unused float field has to hold.
pub fn is_zero_bits(value: f64) -> bool {
    value.to_bits() == 0
}

/// Takes fields off the front of bytes that are long enough.
pub struct Reader<'a>(pub &'a [u8]);

impl Reader<'_> {
    fn take<const N: usize>(&mut self) -> [u8; N] {
        let (field, rest) = self.0.split_first_chunk().expect("a whole field");
        self.0 = rest;
        *field
    }

    pub fn u8(&mut self) -> u8 {
        self.take::<1>()[0]
    }

    pub fn u32(&mut self) -> u32 {
        u32::from_le_bytes(self.take())
    }

    pub fn i32(&mut self) -> i32 {
        i32::from_le_bytes(self.take())
    }

    pub fn u64(&mut self) -> u64 {
        u64::from_le_bytes(self.take())
    }

    pub fn f64(&mut self) -> f64 {
        f64::from_le_bytes(self.take())
    }
}
