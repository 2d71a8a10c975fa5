//! Document 02, change 4: "the squares of the halfway points to both neighbours of s lie on either side of that sum", in whole numbers, of
//! the processor's own root, which the model of kind 4 takes.

use cases::floats::SMALLEST;
use cases::radicands::{self, halfway_squares, radicand};
use cases::random::Random;

const SEED: u64 = 0x0068_616C_6677_6179;
const ROOTS: usize = 1_000_000;
const FRACTION_BITS: u32 = 52;
const LEAST_DIGITS: u128 = 1 << FRACTION_BITS;

/// digits and power with value = digits * 2^power.
fn scaled(value: f64) -> (u128, i64) {
    let exponent = (value.to_bits() >> FRACTION_BITS) as i64;
    let fraction = u128::from(value.to_bits()) % LEAST_DIGITS;
    match exponent {
        0 => (fraction, -1074),
        _ => (LEAST_DIGITS + fraction, exponent - 1075),
    }
}

/// Whether s is the f64 nearest to the root of the sum. In quarters of the last place of s its halfway points are 4 digits + 2 and
/// 4 digits - 2, or - 1 for a power of two, below which floats lie half as far apart. A sum is compared with their squares in sixteenths of
/// the square of that place: all stay below 2^112. Neither square is ever the sum.
fn is_nearest(sum: f64, s: f64) -> bool {
    let (sum_digits, sum_power) = scaled(sum);
    let (digits, power) = scaled(s);
    let below = if digits == LEAST_DIGITS { 1 } else { 2 };
    let shift = sum_power - 2 * power + 4;
    let whole = (0..128).contains(&shift) && sum_digits.leading_zeros() as i64 > shift;
    whole && {
        let sum = sum_digits << shift;
        let (low, high) = (4 * digits - below, 4 * digits + 2);
        low * low < sum && sum < high * high
    }
}

fn held_to_the_words(sum: f64) {
    let s = sum.sqrt();
    assert!(is_nearest(sum, s), "{sum:e}");
    assert!(!is_nearest(sum, s.next_up()), "{sum:e}");
    assert!(!is_nearest(sum, s.next_down()), "{sum:e}");
}

#[test]
fn the_processors_root() {
    radicands::chosen().into_iter().for_each(held_to_the_words);
    let mut random = Random::new(SEED);
    (0..ROOTS).for_each(|_| held_to_the_words(radicand(&mut random)));
}

/// Worked: at 1 the halfway points are 1 - u/4 and 1 + u/2.
#[test]
fn beside_one() {
    let one = 1.0f64;
    assert!(is_nearest(one.next_down(), one.next_down()));
    assert!(is_nearest(one.next_up(), one) && !is_nearest(one.next_up(), one.next_up()));
    assert!(is_nearest(one.next_up().next_up(), one.next_up()));
    assert!(is_nearest(SMALLEST, f64::from_bits((1023 - 537) << 52)));
    assert!(is_nearest(f64::MAX, f64::MAX.sqrt()));
    let (u25, u26) = (f64::EPSILON * 134_217_728.0, f64::EPSILON * 67_108_864.0);
    assert!(is_nearest(one + u25, one + u26));
}

/// Among the random numbers are ones whose root is just above and just below a halfway point, and ones whose root is rounded up to a number
/// of 27 binary digits.
#[test]
fn hard_ones_are_among_them() {
    let mut random = Random::new(SEED);
    let mut hard = [0; 3];
    for _ in 0..20_000 {
        let x = radicand(&mut random);
        let s = x.sqrt();
        let (above, below) = halfway_squares(s);
        let beside = |square: f64| x.to_bits().abs_diff(square.to_bits()) <= 1;
        hard[0] += u32::from(beside(above));
        hard[1] += u32::from(beside(below));
        let rounded_up = s.mul_add(s, -x) > 0.0;
        hard[2] += u32::from(rounded_up && s.to_bits().trailing_zeros() >= 26);
    }
    assert!(
        hard[0] > 1000 && hard[1] > 1000 && hard[2] > 200,
        "{hard:?}"
    );
}
