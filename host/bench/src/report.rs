//! The benchmark of the evaluations and the sampler: both sides in one run, first held to the same answers, then timed.

use crate::formats::{PIECE, SAMPLE_BYTES, Sample};
use crate::numbers::{self, SIDES, Sides};
use crate::timing::{RUNS, best};
use crate::workloads::{self, POINTS, POSITIONS};
use crate::{probe, rust_side};
use reference::evaluation::OPERATIONS;
use reference::hazard::Hazard;
use std::hint::black_box;

const EVALUATIONS: &str = "
Evaluations, on numbers, one driver for both sides. Checked: each call checks the fields, and the Rust
side builds the Rust's hazard. Unchecked: the evaluation alone, on a hazard built beforehand. Weibull: beside
the same steps in plain Rust with the processor's own root, not the Rust's powf. Rattle's inversions give
the piece of the curve too, the Rust's do not.";

const SAMPLER: &str = "
Sampler, on records decoded beforehand. Checked: each call checks the records, and the Rust side builds
the Rust's causes. Prebuilt: the Rust's bare sample_next on causes built beforehand, which checks
nothing, beside Rattle's checked call. Rattle's samples have the winner's piece too, the Rust's do not.";

pub fn print() {
    println!("ns per call, best of {RUNS} runs; ratio = Rust / Rattle, above 1: Rattle is faster");
    print_evaluations();
    print_samples();
}

fn print_evaluations() {
    println!("{EVALUATIONS}");
    println!(
        "{:<25}{:<20}{:>9}{:>9}{:>7}{:>11}{:>9}{:>7}",
        "", "", "Rust", "Rattle", "ratio", "unch. Rust", "Rattle", "ratio"
    );
    for (operation, name) in (0..).zip(OPERATIONS) {
        for workload in workloads::evaluations() {
            let [rust, rattle, bare, bare_rattle] = evaluation_times(operation, &workload.hazard);
            println!(
                "{name:<25}{:<20}{rust:>9.2}{rattle:>9.2}{:>7.2}{bare:>11.2}{bare_rattle:>9.2}{:>7.2}",
                workload.name,
                rust / rattle,
                bare / bare_rattle
            );
        }
    }
}

fn print_samples() {
    println!("{SAMPLER}");
    println!(
        "{:<25}{:>9}{:>9}{:>7}{:>15}{:>7}",
        "causes", "Rust", "Rattle", "ratio", "prebuilt Rust", "ratio"
    );
    for workload in workloads::samples() {
        let [rust, rattle, prebuilt] = sample_times(&workload.request);
        println!(
            "{:<25}{rust:>9.1}{rattle:>9.1}{:>7.2}{prebuilt:>15.1}{:>7.2}",
            workload.name,
            rust / rattle,
            prebuilt / rattle
        );
    }
}

/// Rust and Rattle checked, Rust and Rattle unchecked.
fn evaluation_times(operation: u8, hazard: &Hazard) -> [f64; 4] {
    let points = workloads::points();
    let sides = Sides::new(operation, hazard);
    let mut outs = SIDES.map(|side| {
        let mut out = vec![0.0; POINTS];
        side(&sides, &points, &mut out);
        out
    });
    let same = |(x, y): (&f64, &f64)| numbers::same(*x, *y);
    let agrees = |out: &Vec<f64>| out.iter().zip(&outs[0]).all(same);
    assert!(outs.iter().all(agrees), "the sides differ");
    let [a, b, c, d] = outs.each_mut();
    let batch = |side: usize, out: &mut [f64]| {
        SIDES[side](black_box(&sides), black_box(&points), black_box(out));
    };
    best(
        POINTS,
        [
            &mut || batch(0, a),
            &mut || batch(1, b),
            &mut || batch(2, c),
            &mut || batch(3, d),
        ],
    )
}

/// Samples with zero in place of the piece, which the Rust does not give.
fn without_pieces(samples: &[u8]) -> Vec<u8> {
    let mut samples = samples.to_vec();
    for sample in samples.chunks_exact_mut(SAMPLE_BYTES) {
        sample[PIECE] = 0;
    }
    samples
}

/// Rust and Rattle checked, Rust prebuilt.
fn sample_times(request: &[u8]) -> [f64; 3] {
    let (stream, positions) = (workloads::thresholds(), workloads::positions());
    let sides: [Sample; 3] = [rust_side::sample, probe::sample, rust_side::sample_prebuilt];
    let mut outs = sides.map(|side| {
        let mut out = vec![0xA5; POSITIONS * SAMPLE_BYTES];
        let done = side(request, &stream, &positions, &mut out);
        assert_eq!(done, POSITIONS as u64);
        out
    });
    let rust = without_pieces(&outs[0]);
    assert!(
        outs.iter().all(|out| without_pieces(out) == rust),
        "the sides differ"
    );
    let [a, b, c] = outs.each_mut();
    let batch = |side: usize, out: &mut [u8]| {
        sides[side](black_box(request), &stream, &positions, black_box(out));
    };
    best(
        POSITIONS,
        [&mut || batch(0, a), &mut || batch(1, b), &mut || {
            batch(2, c)
        }],
    )
}
