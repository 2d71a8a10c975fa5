//! Changes that make an accepted hazard a refused one, one function for each condition.

use crate::floats::{SMALLEST, Style, not_an_end, not_zero_bits, out_of_size, spread};
use crate::hazards::{piecewise, single_rate};
use crate::random::Random;
use crate::weibull;
use reference::hazard::{CONSTANT, GOMPERTZ, Hazard, PAIRS, SMALLEST_SCALE, WEIBULL, ZERO};

type Damage = fn(&mut Random, &mut Hazard);

const DAMAGES: [Damage; 12] = [
    kind_off_its_list,
    first_of_zero,
    first_out_of_size,
    scale_too_small,
    used_rate_out_of_size,
    rate_out_of_size_and_count_above_eight,
    count_above_eight,
    count_where_unused,
    pair_where_unused,
    end_out_of_range,
    ends_equal,
    ends_descending,
];

pub fn damage(random: &mut Random, hazard: &mut Hazard) {
    let change = random.pick(&DAMAGES);
    change(random, hazard);
}

/// 4.
fn kind_off_its_list(random: &mut Random, hazard: &mut Hazard) {
    hazard.kind = if random.chance(50) {
        WEIBULL + 1
    } else {
        random.byte_from(WEIBULL + 1)
    };
}

/// 4.
fn first_of_zero(random: &mut Random, hazard: &mut Hazard) {
    *hazard = Hazard::single_rate(ZERO, not_zero_bits(random));
}

/// 5, or 4 for kind 0.
fn first_out_of_size(random: &mut Random, hazard: &mut Hazard) {
    hazard.first = out_of_size(random);
}

/// 5.
fn scale_too_small(random: &mut Random, hazard: &mut Hazard) {
    let below = SMALLEST_SCALE.next_down();
    let scale = match random.below(3) {
        0 => below,
        1 => random.pick(&[SMALLEST, f64::MIN_POSITIVE, SMALLEST_SCALE / 2.0]),
        _ => spread(random, SMALLEST, below),
    };
    *hazard = Hazard::single_rate(WEIBULL, scale);
}

/// 5.
fn used_rate_out_of_size(random: &mut Random, hazard: &mut Hazard) {
    *hazard = some_pairs(random);
    let at = random.index(hazard.used().len());
    hazard.pairs[at].rate = out_of_size(random);
}

/// 5: all eight pairs are used.
fn rate_out_of_size_and_count_above_eight(random: &mut Random, hazard: &mut Hazard) {
    count_above_eight(random, hazard);
    hazard.pairs[random.index(PAIRS)].rate = out_of_size(random);
}

/// 6.
fn count_above_eight(random: &mut Random, hazard: &mut Hazard) {
    *hazard = piecewise(random, Style::Moderate, PAIRS);
    hazard.count = if random.chance(50) {
        PAIRS as u8 + 1
    } else {
        random.byte_from(PAIRS as u8 + 1)
    };
}

/// 6.
fn count_where_unused(random: &mut Random, hazard: &mut Hazard) {
    *hazard = without_pairs(random);
    hazard.count = random.byte_from(1);
}

/// 6.
fn pair_where_unused(random: &mut Random, hazard: &mut Hazard) {
    *hazard = if random.chance(50) {
        without_pairs(random)
    } else {
        let count = random.index(PAIRS);
        piecewise(random, Style::Simple, count)
    };
    let used = hazard.used().len();
    let pair = &mut hazard.pairs[used + random.index(PAIRS - used)];
    if random.chance(50) {
        pair.end = not_zero_bits(random);
    } else {
        pair.rate = not_zero_bits(random);
    }
}

/// 6.
fn end_out_of_range(random: &mut Random, hazard: &mut Hazard) {
    *hazard = some_pairs(random);
    let at = random.index(hazard.used().len());
    hazard.pairs[at].end = not_an_end(random);
}

/// 6.
fn ends_equal(random: &mut Random, hazard: &mut Hazard) {
    *hazard = two_pairs_or_more(random);
    let at = random.index(hazard.used().len() - 1);
    hazard.pairs[at + 1].end = hazard.pairs[at].end;
}

/// 6.
fn ends_descending(random: &mut Random, hazard: &mut Hazard) {
    *hazard = two_pairs_or_more(random);
    let at = random.index(hazard.used().len() - 1);
    hazard.pairs[at + 1].end = hazard.pairs[at].end.next_down();
}

fn without_pairs(random: &mut Random) -> Hazard {
    match random.below(4) {
        0 => Hazard::default(),
        1 => single_rate(random, Style::Simple, CONSTANT),
        2 => single_rate(random, Style::Simple, GOMPERTZ),
        _ => weibull::hazard(random, Style::Simple),
    }
}

fn some_pairs(random: &mut Random) -> Hazard {
    let count = 1 + random.index(PAIRS);
    piecewise(random, Style::Simple, count)
}

fn two_pairs_or_more(random: &mut Random) -> Hazard {
    let count = 2 + random.index(PAIRS - 1);
    piecewise(random, Style::Simple, count)
}
