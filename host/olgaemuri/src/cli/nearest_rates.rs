//! The rates around a wait that no rate gives.

/// 2^40, the largest rate and the longest wait.
pub const MOST: f64 = 1_099_511_627_776.0;

/// Of the rates above 0 and at most 2^40, the largest that waits longer and the smallest that waits shorter. Threshold and wait are
/// above 0.
pub fn nearest_rates(threshold: f64, wait: f64) -> (Option<f64>, Option<f64>) {
    let not_longer = first(|rate| threshold / rate <= wait);
    let shorter = first(|rate| threshold / rate < wait);
    (rate_with(not_longer - 1), rate_with(shorter))
}

/// The bits of the smallest rate for which it holds, which then holds for every larger one; where it holds for none, those behind the
/// largest rate. Positive floats are in the order of their bits.
fn first(holds: impl Fn(f64) -> bool) -> u64 {
    let (mut first, mut end) = (1, MOST.to_bits() + 1);
    while first < end {
        let middle = first + (end - first) / 2;
        if holds(f64::from_bits(middle)) {
            end = middle;
        } else {
            first = middle + 1;
        }
    }
    first
}

/// The rate with these bits, if it is one.
fn rate_with(bits: u64) -> Option<f64> {
    Some(f64::from_bits(bits)).filter(|rate| *rate > 0.0 && *rate <= MOST)
}

#[cfg(test)]
mod tests {
    use super::*;
    use olgaemuri::{Refusal, rate_for_wait};

    #[test]
    fn around_a_wait_that_no_rate_gives() {
        let (longer, shorter) = nearest_rates(1.0, 49.0);
        assert_eq!(
            (longer, shorter),
            (Some(0.02040816326530612), Some(0.020408163265306124))
        );
        assert_eq!(1.0 / longer.unwrap(), 49.00000000000001);
        assert_eq!(1.0 / shorter.unwrap(), 48.99999999999999);
    }

    #[test]
    fn subnormal_rates() {
        // 3 of the smallest float at 1 of it and at 2 of it
        assert_eq!(nearest_rates(1.5e-323, 2.0), (Some(5e-324), Some(1e-323)));
        let below = 2f64.powi(-1021).next_down();
        let smallest_normal = f64::MIN_POSITIVE;
        let around = (Some(smallest_normal.next_down()), Some(smallest_normal));
        assert_eq!(nearest_rates(below, 2.0), around);
    }

    #[test]
    fn at_the_ends_there_is_one() {
        assert_eq!(nearest_rates(5e-324, 2.0), (None, Some(5e-324)));
        assert_eq!(nearest_rates(1024.0, 1.0 / MOST), (Some(MOST), None));
        let shortest = (1.0 / MOST).next_up();
        assert_eq!(nearest_rates(1024.0, shortest), (Some(MOST), None));
        // these are given: by the largest rate, and by the smallest
        assert_eq!(
            nearest_rates(1.0, 1.0 / MOST),
            (Some(MOST.next_down()), None)
        );
        assert_eq!(nearest_rates(5e-324, 1.0), (None, Some(1e-323)));
    }

    /// Without a rate for the wait the two are neighbours; with one it is the next above the one that waits longer.
    #[test]
    fn they_stand_around_the_engine_s_answer() {
        let mut bits = 20261116u64;
        let mut counts = [0, 0];
        for _ in 0..20_000 {
            bits = bits.wrapping_mul(0x9e37_79b9_7f4a_7c15).rotate_left(23) ^ 0x5851_f42d;
            // 0x3ff is the exponent of 1; thresholds from any exponent below that of 1024, waits within 2^20 and 2^-20
            let threshold = f64::from_bits((bits >> 1) % 1024f64.to_bits());
            let wait = f64::from_bits((0x3ff - 20 + bits % 40) << 52 | bits >> 12);
            let (longer, shorter) = nearest_rates(threshold, wait);
            let next = longer.map_or(5e-324, f64::next_up);
            match rate_for_wait(threshold, wait) {
                Ok(rate) => assert_eq!((rate, threshold / rate), (next, wait)),
                Err(Refusal::NoRate) => assert_eq!(shorter, Some(next)),
                Err(other) => panic!("{threshold} {wait}: {other}"),
            }
            counts[usize::from(rate_for_wait(threshold, wait).is_ok())] += 1;
        }
        assert!(counts.into_iter().all(|count| count > 1_000), "{counts:?}");
    }
}
