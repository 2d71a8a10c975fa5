//! The evaluations on numbers, with and without their checks: one driver calls either side at each point by a pointer, and each side makes
//! one call that is not inlined: Rattle's across the C boundary, the Rust's to a function here.

use crate::probe::{self, Fields};
use kairo_ecs_rng::{UnchangedHazard, Weibull};
use reference::evaluation::{self, OPERATIONS};
use reference::hazard::Hazard;
use std::hint::black_box;

/// Hazard, t, w; a NaN where it is refused or there is no wait.
type Call<H> = fn(&H, f64, f64) -> f64;

/// By operation number. The Rust side checks by document 01's rules, builds the Rust's hazard, or the model of kind 4, and calls it.
const CHECKED_RUST: [Call<Hazard>; OPERATIONS.len()] = [
    |hazard, t, w| checked(0, hazard, t, w),
    |hazard, t, w| checked(1, hazard, t, w),
    |hazard, t, w| checked(2, hazard, t, w),
];

const CHECKED_RATTLE: [Call<Fields>; OPERATIONS.len()] = [
    |hazard, t, w| probe::evaluate_numbers(0, hazard, t, w),
    |hazard, t, w| probe::evaluate_numbers(1, hazard, t, w),
    |hazard, t, w| probe::evaluate_numbers(2, hazard, t, w),
];

const RUST: [Call<UnchangedHazard>; OPERATIONS.len()] = [
    |hazard, t, _| hazard_at(hazard, t),
    |hazard, t, _| cumulative_hazard(hazard, t),
    |hazard, t, w| invert_cumulative_hazard(hazard, t, w),
];

/// Kind 4 in plain Rust.
const MODEL: [Call<Weibull>; OPERATIONS.len()] = [
    |weibull, t, _| model_hazard_at(*weibull, t),
    |weibull, t, _| model_cumulative_hazard(*weibull, t),
    |weibull, t, w| model_invert_cumulative_hazard(*weibull, t, w),
];

/// The wait of an inversion; its piece, which the Rust does not give, is left out.
const RATTLE: [Call<Fields>; OPERATIONS.len()] = [
    |hazard, t, _| probe::hazard_at(hazard, t),
    |hazard, t, _| probe::cumulative_hazard(hazard, t),
    |hazard, t, w| probe::invert_cumulative_hazard(hazard, t, w).wait,
];

#[inline(never)]
fn checked(operation: u8, hazard: &Hazard, t: f64, w: f64) -> f64 {
    let answer = match operation {
        0 => evaluation::hazard_at(hazard, t).map(Some),
        1 => evaluation::cumulative_hazard(hazard, t).map(Some),
        _ => evaluation::invert_cumulative_hazard(hazard, t, w),
    };
    answer.ok().flatten().unwrap_or(f64::NAN)
}

#[inline(never)]
fn hazard_at(hazard: &UnchangedHazard, t: f64) -> f64 {
    hazard.hazard_at(t)
}

#[inline(never)]
fn cumulative_hazard(hazard: &UnchangedHazard, t: f64) -> f64 {
    hazard.cumulative_hazard(t)
}

#[inline(never)]
fn invert_cumulative_hazard(hazard: &UnchangedHazard, t_start: f64, target_w: f64) -> f64 {
    let wait = hazard.invert_cumulative_hazard(t_start, target_w);
    wait.unwrap_or(f64::NAN)
}

#[inline(never)]
fn model_hazard_at(weibull: Weibull, t: f64) -> f64 {
    weibull.hazard_at(t)
}

#[inline(never)]
fn model_cumulative_hazard(weibull: Weibull, t: f64) -> f64 {
    weibull.cumulative_hazard(t)
}

#[inline(never)]
fn model_invert_cumulative_hazard(weibull: Weibull, t_start: f64, target_w: f64) -> f64 {
    let wait = weibull.invert_cumulative_hazard(t_start, target_w);
    wait.unwrap_or(f64::NAN)
}

/// One evaluation on all four sides.
pub struct Sides {
    operation: usize,
    hazard: Hazard,
    rate: UnchangedHazard,
    weibull: Option<Weibull>,
    fields: Fields,
}

/// Rust and Rattle checked, Rust and Rattle unchecked.
pub const SIDES: [fn(&Sides, &[(f64, f64)], &mut [f64]); 4] = [
    |s, points, out| each_point(CHECKED_RUST[s.operation], &s.hazard, points, out),
    |s, points, out| each_point(CHECKED_RATTLE[s.operation], &s.fields, points, out),
    |s, points, out| match &s.weibull {
        Some(weibull) => each_point(MODEL[s.operation], weibull, points, out),
        None => each_point(RUST[s.operation], &s.rate, points, out),
    },
    |s, points, out| each_point(RATTLE[s.operation], &s.fields, points, out),
];

impl Sides {
    pub fn new(operation: u8, hazard: &Hazard) -> Self {
        Self {
            operation: usize::from(operation),
            hazard: *hazard,
            rate: hazard.build_unchanged(),
            weibull: hazard.weibull(),
            fields: Fields::of(hazard),
        }
    }

    /// Kind 4, with the Rust's own Weibull of shape 2 in place of the model. The compiler does not know the shape.
    pub fn with_powf(operation: u8, hazard: &Hazard) -> Self {
        Self {
            rate: UnchangedHazard::Weibull {
                shape: black_box(2.0),
                scale: hazard.first,
            },
            weibull: None,
            ..Self::new(operation, hazard)
        }
    }
}

#[inline(never)]
fn each_point<H>(call: Call<H>, hazard: &H, points: &[(f64, f64)], out: &mut [f64]) {
    let call = black_box(call);
    for ((t, w), out) in points.iter().zip(out) {
        *out = call(hazard, *t, *w);
    }
}

/// The same number; either zero, and any NaN, counts as the other.
pub fn same(a: f64, b: f64) -> bool {
    a == b || (a.is_nan() && b.is_nan())
}
