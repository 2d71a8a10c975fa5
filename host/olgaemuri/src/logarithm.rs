//! The natural logarithm by additions, subtractions, multiplications and one division, which IEEE 754 gives to the last bit on every
//! machine. No library of the system is asked: their logarithms differ in last bits.

/// ln 2 in two parts; a whole number up to 2^20 times the first is exact.
const LN_2: [f64; 2] = [
    f64::from_bits(0x3fe6_2e42_fee0_0000),
    f64::from_bits(0x3dea_39ef_3579_3c76),
];

/// How many terms of the series are added: the rest is below 1e-18 of the sum.
const TERMS: u32 = 10;

const MANTISSA_BITS: u32 = 52;

/// ln x for a normal x above 0, to within 0.9 of a unit in the last place (measured, see the tests).
///
/// x is 2^k (1 + f) with 1 + f between the roots of 1/2 and 2. With s = f / (2 + f) and z = s², ln (1 + f) is 2 s + s R, where
/// R = 2/3 z + 2/5 z² + 2/7 z³ + ... It is added up as f - (f²/2 - s (f²/2 + R)), so that what is large is exact.
pub(crate) fn natural_logarithm(x: f64) -> f64 {
    let (k, f) = parted(x);
    let half_square = 0.5 * f * f;
    let s = f / (2.0 + f);
    let rest = s * (half_square + series(s * s));
    k * LN_2[0] - ((half_square - (rest + k * LN_2[1])) - f)
}

/// k and f, both exact.
fn parted(x: f64) -> (f64, f64) {
    let bits = x.to_bits();
    let exponent = (bits >> MANTISSA_BITS) as i32 - 1023;
    let mantissa = bits & ((1 << MANTISSA_BITS) - 1);
    let from_1_to_2 = f64::from_bits(mantissa | 1023 << MANTISSA_BITS);
    if from_1_to_2 < std::f64::consts::SQRT_2 {
        (f64::from(exponent), from_1_to_2 - 1.0)
    } else {
        (f64::from(exponent + 1), 0.5 * from_1_to_2 - 1.0)
    }
}

/// R, from the last term on.
fn series(z: f64) -> f64 {
    let term = |sum: f64, n: u32| z * (2.0 / f64::from(2 * n + 1) + sum);
    (1..=TERMS).rev().fold(0.0, term)
}

#[cfg(test)]
mod tests {
    use super::*;

    /// A number as the sum of two floats, the second below half a unit in the last place of the first: about 106 bits.
    #[derive(Clone, Copy)]
    struct Double(f64, f64);

    impl Double {
        fn sum(one: f64, other: f64) -> Self {
            let sum = one + other;
            let part = sum - one;
            Self(sum, (one - (sum - part)) + (other - part))
        }

        fn plus(self, other: Self) -> Self {
            let high = Self::sum(self.0, other.0);
            Self::sum(high.0, high.1 + (self.1 + other.1))
        }

        fn times(self, other: Self) -> Self {
            let product = self.0 * other.0;
            let rest = self.0.mul_add(other.0, -product);
            Self::sum(product, rest + (self.0 * other.1 + self.1 * other.0))
        }

        fn over(self, other: Self) -> Self {
            let first = self.0 / other.0;
            let left = self.plus(other.times(Self(-first, 0.0)));
            let second = left.0 / other.0;
            let left = left.plus(other.times(Self(-second, 0.0)));
            Self::sum(first, second).plus(Self(left.0 / other.0, 0.0))
        }
    }

    /// 2 (s + s³/3 + s⁵/5 + ...) for s = f / (2 + f).
    fn better_of_part(f: f64) -> Double {
        let s = Double(f, 0.0).over(Double::sum(2.0, f));
        let z = s.times(s);
        let mut sum = Double(0.0, 0.0);
        for n in (0..40).rev() {
            let term = Double(2.0, 0.0).over(Double(f64::from(2 * n + 1), 0.0));
            sum = term.plus(z.times(sum));
        }
        s.times(sum)
    }

    /// ln x with some 100 bits. ln 2 is -ln (1/2) by the same series.
    fn better(x: f64) -> Double {
        let (k, f) = parted(x);
        let ln_2 = better_of_part(-0.5);
        better_of_part(f).plus(ln_2.times(Double(-k, 0.0)))
    }

    /// How far the logarithm is from the better one, in units of its last place.
    fn error(x: f64) -> f64 {
        let (found, better) = (natural_logarithm(x), better(x));
        let unit = f64::from_bits(found.abs().to_bits() + 1) - found.abs();
        (((found - better.0) - better.1) / unit).abs()
    }

    #[test]
    fn the_better_one_is_better() {
        // ln 2 = 0.693147180559945309417232121458176568
        let ln_2 = better(2.0);
        assert_eq!(ln_2.0, std::f64::consts::LN_2);
        assert!((ln_2.1 - 2.319_046_813_846_299_6e-17).abs() < 1e-31);
        // ln 10 = 2.302585092994045684017991454684364208
        let ln_10 = better(10.0);
        assert_eq!(ln_10.0, std::f64::consts::LN_10);
        assert!((ln_10.1 + 2.170_756_223_382_249_4e-16).abs() < 1e-30);
    }

    #[test]
    fn the_parts_of_ln_2() {
        let sum = Double::sum(LN_2[0], LN_2[1]);
        let off = sum.plus(better(0.5));
        assert!(off.0.abs() < 2e-26, "{}", off.0);
        assert_eq!(LN_2[0].to_bits().trailing_zeros(), 21);
    }

    #[test]
    fn within_one_unit_in_the_last_place() {
        let mut worst = (0.0, 0.0);
        for number in 0..20_000u64 {
            let bits = crate::philox::block([number, 0, 0, 0], [7, 7])[0];
            let even = (2 * (bits >> 12) + 1) as f64 * (0.5f64).powi(53);
            let small = f64::from_bits(even.to_bits() - ((bits & 63) << MANTISSA_BITS));
            for x in [even, 1.0 - even, small] {
                worst = if error(x) > worst.0 {
                    (error(x), x)
                } else {
                    worst
                };
            }
        }
        // 0.845 over 4,000,000 in place of 20,000
        assert!(worst.0 < 0.85, "{worst:?}");
    }

    #[test]
    fn edges() {
        assert_eq!(natural_logarithm(1.0), 0.0);
        let last = 1.0 - f64::EPSILON / 2.0;
        assert_eq!(natural_logarithm(last), -f64::EPSILON / 2.0);
        for exponent in 1..=60 {
            assert!(error(0.5f64.powi(exponent)) < 0.9, "2^-{exponent}");
        }
    }
}
