//! Numbers to take the root of: of every size, at the ends, beside squares, beside the squares of numbers with few digits, and beside
//! those of numbers that lie halfway between two floats, whose roots are the hardest to round.

use crate::floats::{LARGEST_SUBNORMAL, SMALLEST, near, spread};
use crate::random::Random;

const FRACTION_BITS: u64 = 52;

/// The roots of the smallest and of the largest f64 are about 2^-537 and 2^512.
const LEAST_ROOT: f64 = power_of_two(-537);
const MOST_ROOT: f64 = power_of_two(512).next_down();

const fn power_of_two(exponent: i64) -> f64 {
    f64::from_bits(((1023 + exponent) as u64) << FRACTION_BITS)
}

/// The power of two at or below a float that is above 0 and not subnormal.
fn whole_power(x: f64) -> f64 {
    f64::from_bits(x.to_bits() >> FRACTION_BITS << FRACTION_BITS)
}

/// Above 0 and finite.
pub fn radicand(random: &mut Random) -> f64 {
    match random.below(5) {
        0 => spread(random, SMALLEST, f64::MAX),
        1 => {
            let root = spread(random, LEAST_ROOT, MOST_ROOT);
            near(random, root * root).clamp(SMALLEST, f64::MAX)
        }
        2 => power_beside(random),
        3 => near_short_square(random, 484),
        _ => near_halfway(random, LEAST_ROOT, MOST_ROOT),
    }
}

/// The least number of 27 binary digits; the square of one has 53 or 54.
const LEAST_SHORT: u64 = 1 << 26;

/// About the square of a number of 27 binary digits, times 4^-511 to 4^`most`.
pub fn near_short_square(random: &mut Random, most: i64) -> f64 {
    let short = LEAST_SHORT + random.below(LEAST_SHORT);
    let power = random.below((most + 512) as u64) as i64 - 511;
    near(random, (short * short) as f64) * power_of_two(2 * power)
}

/// From 1 to 4, and just below the square of a number of 27 binary digits, the last of them 1: that number is the nearest root.
pub fn below_short_square(random: &mut Random) -> f64 {
    below_square(LEAST_SHORT + (random.below(LEAST_SHORT) | 1))
}

fn below_square(odd: u64) -> f64 {
    (odd * odd - 1) as f64 * power_of_two(-(FRACTION_BITS as i64))
}

/// A power of two or a neighbour: odd powers have no root among the floats.
fn power_beside(random: &mut Random) -> f64 {
    let power = f64::from_bits((1 + random.below(2046)) << FRACTION_BITS);
    near(random, power)
}

/// About the square of the number halfway between a root from the range and one of its neighbours. One root of four is a power of two,
/// below which floats lie half as far apart.
pub fn near_halfway(random: &mut Random, least: f64, most: f64) -> f64 {
    let root = spread(random, least, most);
    let root = if random.chance(25) {
        whole_power(root)
    } else {
        root
    };
    let (above, below) = halfway_squares(root.max(least));
    let square = if random.chance(50) { above } else { below };
    near(random, square).clamp(SMALLEST, f64::MAX)
}

/// The floats nearest to the squares of the numbers halfway to both neighbours of a float that is not subnormal.
pub fn halfway_squares(root: f64) -> (f64, f64) {
    let digits = u128::from(root.to_bits() % (1 << FRACTION_BITS) + (1 << FRACTION_BITS));
    let quarter = whole_power(root) / (4u64 << FRACTION_BITS) as f64;
    let below = if digits == 1 << FRACTION_BITS { 1 } else { 2 };
    let square = |quarters: u128| (quarters * quarters) as f64 * quarter * quarter;
    (square(4 * digits + 2), square(4 * digits - below))
}

/// Exponents of powers of two: the ends, those of the scales' limits and of what these give, and some between.
const EXPONENTS: [i64; 14] = [
    -1022, -1021, -537, -80, -40, -1, 0, 1, 2, 40, 80, 160, 161, 1023,
];

/// The ends, both sides of powers of two, small whole numbers, and beside the squares of halfway points and of numbers with few digits.
pub fn chosen() -> Vec<f64> {
    let beside = |x: f64| [x.next_down(), x, x.next_up(), x.next_up().next_up()];
    let mut all = [SMALLEST, LARGEST_SUBNORMAL, f64::MAX].map(beside).concat();
    all.extend(EXPONENTS.map(power_of_two).map(beside).concat());
    all.extend((1..=40).map(f64::from));
    let short = [
        LEAST_SHORT + 1,
        LEAST_SHORT * 3 / 2 + 1,
        2 * LEAST_SHORT - 1,
    ];
    all.extend(short.map(below_square).map(beside).concat());
    let one = 1.0f64;
    for root in [
        LEAST_ROOT,
        one,
        one.next_up(),
        one.next_down(),
        1.5,
        MOST_ROOT,
    ] {
        let (above, below) = halfway_squares(root);
        all.extend([above, below].map(beside).concat());
    }
    all.retain(|x| *x > 0.0 && x.is_finite());
    all
}
