//! The benchmark of `rate_for_wait`: Rattle's call beside the model and beside a bare division, in one run.

use crate::timing::best;
use crate::workloads::{self, POINTS};
use reference::rate_for_wait::rate_for_wait;
use std::hint::black_box;

const HEAD: &str = "
Rate for a wait, on pairs that all have a rate, one driver for all. Rattle: the checks and a bisection over the bit
patterns of rates, begun beside threshold / wait, or over all of them. Model: the oracle's checks and one division of
whole numbers of 128 bits. Division: the processor's threshold / wait alone, which checks nothing and is not always the
rate. ratio = Model / Rattle.";

type Call = fn(f64, f64) -> f64;

/// Rattle, the model, a division.
const SIDES: [Call; 3] = [rattle, model, division];

#[inline(never)]
fn rattle(threshold: f64, wait: f64) -> f64 {
    olgaemuri_sys::rate_for_wait(threshold, wait).1
}

#[inline(never)]
fn model(threshold: f64, wait: f64) -> f64 {
    rate_for_wait(threshold, wait).rate
}

#[inline(never)]
fn division(threshold: f64, wait: f64) -> f64 {
    threshold / wait
}

pub fn print() {
    println!("{HEAD}");
    println!(
        "{:<43}{:>9}{:>9}{:>7}{:>11}",
        "", "Model", "Rattle", "ratio", "division"
    );
    print_row("moderate rates", &workloads::rate_pairs());
    print_row("rate 2^40, all searched", &workloads::largest_rate_pairs());
}

fn print_row(name: &str, pairs: &[(f64, f64)]) {
    let [rattle, model, division] = times(pairs);
    println!(
        "rate_for_wait{:<5}{name:<25}{model:>9.2}{rattle:>9.2}{:>7.2}{division:>11.2}",
        "",
        model / rattle
    );
}

/// In the order of the sides.
fn times(pairs: &[(f64, f64)]) -> [f64; 3] {
    let [mut a, mut b, mut c] = SIDES.map(|side| answers(side, pairs));
    assert!(a == b && !a.contains(&0.0), "the sides differ");
    let batch = |side: usize, out: &mut [f64]| each_pair(SIDES[side], black_box(pairs), out);
    best(
        POINTS,
        [
            &mut || batch(0, black_box(&mut a)),
            &mut || batch(1, black_box(&mut b)),
            &mut || batch(2, black_box(&mut c)),
        ],
    )
}

fn answers(side: Call, pairs: &[(f64, f64)]) -> Vec<f64> {
    let mut out = vec![0.0; POINTS];
    each_pair(side, pairs, &mut out);
    out
}

#[inline(never)]
fn each_pair(call: Call, pairs: &[(f64, f64)], out: &mut [f64]) {
    let call = black_box(call);
    for ((threshold, wait), out) in pairs.iter().zip(out) {
        *out = call(*threshold, *wait);
    }
}
