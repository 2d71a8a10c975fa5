//! Chosen evaluations, samples and histories of kind 4 (document 02, change 4): the limits, and where another order of steps, another
//! rounding of the root or another refusal would give another answer.

use crate::chosen::{at, tied, wait};
use crate::chosen_histories::{Chosen, RESTART, RETAIN, constant, create, hazard, pause};
use crate::chosen_histories::{reschedule, resume};
use crate::evaluations::EvaluationCase;
use crate::floats::SMALLEST;
use crate::radicands::halfway_squares;
use crate::samples::SampleCase;
use reference::command::Command;
use reference::fields::LIMIT;
use reference::hazard::{Hazard, SMALLEST_SCALE, WEIBULL};

/// Accepted; those at most 0 are Zero.
const SCALES: [f64; 11] = [
    1.0,
    3.0,
    1.0 / 3.0,
    49.0,
    SMALLEST_SCALE,
    LIMIT,
    0.0,
    -0.0,
    -1.0,
    -SMALLEST_SCALE,
    -LIMIT,
];

/// Refused by 5.
const BAD_SCALES: [f64; 7] = [
    SMALLEST_SCALE.next_down(),
    SMALLEST,
    LIMIT.next_up(),
    -LIMIT.next_up(),
    f64::INFINITY,
    f64::NEG_INFINITY,
    f64::NAN,
];

/// 1 + 2^-25, which is just below the square of 1 + 2^-26: the root is rounded up to a number with few digits.
pub(crate) const SHORT_ROOT: f64 = 1.0 + 1.0 / (1u64 << 25) as f64;

/// Where the thresholds 4.0 and 1.5 stand in the stream of the histories.
pub(crate) const FOUR_THEN_ONE_AND_A_HALF: u64 = 6;

fn kind_4(scale: f64) -> Hazard {
    Hazard::single_rate(WEIBULL, scale)
}

pub fn evaluations() -> Vec<EvaluationCase> {
    let mut cases = Vec::new();
    for scale in SCALES {
        for t in [-1.0, -0.0, SMALLEST, 5.0, 11.0, 13.0, LIMIT] {
            cases.extend(at(kind_4(scale), t));
        }
        cases.extend(waits().map(|(start, w)| wait(kind_4(scale), start, w)));
    }
    for hazard in refused() {
        cases.extend(at(hazard, 1.0));
        cases.push(wait(hazard, 0.0, 1.0));
    }
    cases.extend(roots().into_iter().map(|w| wait(kind_4(1.0), 0.0, w)));
    cases
}

/// Starts and w: w at most 0 first, starts at most 0, the largest sums, and a w that is lost in the sum or nearly so.
fn waits() -> [(f64, f64); 12] {
    [
        (0.0, -0.0),
        (5.0, -1.0),
        (-0.0, SMALLEST),
        (-1.0, 1.0),
        (-LIMIT, 2.0),
        (0.0, LIMIT),
        (3.0, 1.0),
        (1.0, SMALLEST),
        (7.0, 1e-13),
        (LIMIT, SMALLEST),
        (LIMIT, 1.0),
        (LIMIT, LIMIT),
    ]
}

/// Bad scales, a count, a pair, and the kind after the last.
fn refused() -> Vec<Hazard> {
    let mut counted = kind_4(1.0);
    counted.count = 1;
    let mut with_end = kind_4(1.0);
    with_end.pairs[0].end = -0.0;
    let mut with_rate = kind_4(-0.0);
    with_rate.pairs[7].rate = SMALLEST;
    let mut both = kind_4(SMALLEST_SCALE.next_down());
    both.count = 1;
    let next = Hazard::single_rate(WEIBULL + 1, 1.0);
    let mut all: Vec<Hazard> = BAD_SCALES.map(kind_4).into();
    all.extend([counted, with_end, with_rate, both, next]);
    all
}

/// From start 0 with scale 1 a wait is a root: beside powers of two and beside the squares of numbers halfway between two floats.
fn roots() -> Vec<f64> {
    let one = 1.0f64;
    let mut all = vec![SMALLEST, one.next_down(), one, one.next_up(), 2.0];
    all.extend([one.next_up().next_up(), SHORT_ROOT]);
    for root in [one, one.next_up(), 1.5, 3.0, 1000.0, 1e-100] {
        let (above, below) = halfway_squares(root);
        for square in [above, below] {
            all.extend([square.next_down(), square, square.next_up()]);
        }
    }
    all
}

/// Row 7 of document 01's table with kind 4 in place of one cause, both, or beside a Zero, each with a wait of 4.0 from age 0 or of 1.0
/// from age 3; and a single cause whose wait comes out at 0 or below.
pub fn samples() -> Vec<SampleCase> {
    let mut cases = Vec::new();
    for (scale, age, threshold) in [(49.0, 1.0, SMALLEST), (1.0, LIMIT, 1.0), (3.0, 3.0, 1.0)] {
        let mut case = tied(0, &[(3, 1)]);
        case.request.records[0].hazard = kind_4(scale);
        case.request.age = age;
        case.thresholds = vec![threshold];
        cases.push(case);
    }
    for tie in 0..3 {
        let row = tied(tie, &[(7, 9), (3, 1)]);
        for scales in [
            [Some(2.0), None],
            [Some(2.0), Some(2.0)],
            [Some(2.0), Some(-0.0)],
        ] {
            for age in [0.0, 3.0] {
                let mut case = row.clone();
                case.request.age = age;
                for (place, scale) in (0..).zip(scales) {
                    give(&mut case, place, scale, age);
                }
                cases.push(case);
            }
        }
    }
    cases
}

/// A record of kind 4 with a threshold that ends its wait at 4.0; or the one of the row. Cause 3, at place 1, draws first.
fn give(case: &mut SampleCase, place: usize, scale: Option<f64>, age: f64) {
    let drawn = 1 - place;
    match scale {
        Some(scale) => {
            case.request.records[place].hazard = kind_4(scale);
            case.thresholds[drawn] = 4.0 - age * age / 4.0;
        }
        None => case.thresholds[drawn] = (4.0 - age) / 2.0,
    }
}

pub(crate) fn wears(cause: u32, scale: f64, now: f64) -> Command {
    hazard(cause, 0, kind_4(scale), now)
}

/// Scales at the limits through pauses to the last time; scales that change and give way to another kind; ties with a constant rate.
pub(crate) fn histories() -> Vec<Chosen> {
    let clock = create(RETAIN, 0, 10.0);
    let mut all = Vec::new();
    for scale in SCALES {
        let worn = vec![
            wears(4, scale, 0.0),
            reschedule(0.0),
            pause(1.0),
            resume(3.0),
            pause(LIMIT),
        ];
        all.push((clock, 0, worn));
    }
    for policy in [RESTART, RETAIN] {
        let changed = vec![
            wears(1, 3.0, 0.0),
            wears(1, 7.0, 3.0),
            reschedule(3.0),
            constant(1, 0.5, 8.0),
            wears(1, 3.0, 9.0),
            resume(9.0),
            Command::Deliver,
        ];
        all.push((create(policy, 0, 10.0), 0, changed));
    }
    for tie in 0..3 {
        let tied = vec![wears(3, 2.0, 0.0), constant(7, 0.375, 0.0), reschedule(0.0)];
        all.push((create(RESTART, tie, 1.0), FOUR_THEN_ONE_AND_A_HALF, tied));
    }
    all
}
