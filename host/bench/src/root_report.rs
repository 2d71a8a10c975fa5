//! The benchmark of the nearest root and of the wait that takes it (document 02, change 4): Rattle's, in whole numbers, beside the
//! processor's own, in one run.

use crate::numbers::{SIDES as EVALUATIONS, Sides};
use crate::probe;
use crate::timing::best;
use crate::workloads::{self, POINTS};
use reference::evaluation::INVERT_CUMULATIVE_HAZARD;
use reference::hazard::Hazard;
use std::hint::black_box;

const HEAD: &str = "
Nearest root, one driver for both. Rattle: whole numbers decide, after a guess with floats. Processor: its own instruction, in a
function that is called as Rattle's is. Inlined: the same instruction without the call. Chain: each root is added to the next
number before that one's root is taken, so that each waits for the one before; apart: none waits for another. Below squares:
numbers just below the square of one with few digits. ratio = Rattle / Processor.";

const INVERSIONS: &str = "
Wait of kind 4, unchecked, from an age. Plain: the same steps in Rust with the processor's root. powf: the Rust's own Weibull of
shape 2, which may differ in the last bits. ratio = Rattle / Plain.";

type Root = fn(f64) -> f64;

/// Rattle and the processor.
const SIDES: [Root; 2] = [probe::nearest_root, called];

#[inline(never)]
fn called(x: f64) -> f64 {
    x.sqrt()
}

/// All roots of a list, by a function or inlined.
type Driver = fn(Root, &[f64], &mut [f64]);

#[inline(never)]
fn apart(root: Root, numbers: &[f64], out: &mut [f64]) {
    let root = black_box(root);
    for (x, out) in numbers.iter().zip(out) {
        *out = root(*x);
    }
}

#[inline(never)]
fn apart_inlined(_: Root, numbers: &[f64], out: &mut [f64]) {
    for (x, out) in numbers.iter().zip(out) {
        *out = black_box(*x).sqrt();
    }
}

#[inline(never)]
fn chain(root: Root, numbers: &[f64], out: &mut [f64]) {
    let root = black_box(root);
    let mut before = 0.0;
    for (x, out) in numbers.iter().zip(out) {
        before = root(before + *x);
        *out = before;
    }
}

#[inline(never)]
fn chain_inlined(_: Root, numbers: &[f64], out: &mut [f64]) {
    let mut before: f64 = 0.0;
    for (x, out) in numbers.iter().zip(out) {
        before = (before + *x).sqrt();
        *out = before;
    }
}

const CHAIN: [Driver; 2] = [chain, chain_inlined];
const APART: [Driver; 2] = [apart, apart_inlined];

pub fn print() {
    println!("{HEAD}");
    println!(
        "{:<43}{:>11}{:>9}{:>7}{:>9}",
        "", "Processor", "Rattle", "ratio", "inlined"
    );
    let moderate = workloads::moderate_numbers();
    print_row("moderate numbers, chain", CHAIN, &moderate);
    print_row("moderate numbers, apart", APART, &moderate);
    let [all_sizes, subnormal, below_squares] = [
        workloads::numbers_of_all_sizes(),
        workloads::subnormal_numbers(),
        workloads::numbers_below_squares(),
    ];
    print_row("all sizes, apart", APART, &all_sizes);
    print_row("subnormal numbers, apart", APART, &subnormal);
    print_row("below squares, apart", APART, &below_squares);
    println!("{INVERSIONS}");
    println!(
        "{:<43}{:>11}{:>9}{:>7}{:>9}",
        "", "Plain", "Rattle", "ratio", "powf"
    );
    let [plain, rattle, powf] = inversion_times(&workloads::weibull());
    println!(
        "invert_cumulative_hazard {:<18}{plain:>11.2}{rattle:>9.2}{:>7.2}{powf:>9.2}",
        "weibull",
        rattle / plain
    );
}

fn print_row(name: &str, drivers: [Driver; 2], numbers: &[f64]) {
    let [rattle, processor, inlined] = times(drivers, numbers);
    println!(
        "nearest_root{:<6}{name:<25}{processor:>11.2}{rattle:>9.2}{:>7.2}{inlined:>9.2}",
        "",
        rattle / processor
    );
}

/// Rattle, the processor called and inlined; first held to the same bits.
fn times([by_call, inlined]: [Driver; 2], numbers: &[f64]) -> [f64; 3] {
    let mut outs = [(by_call, 0), (by_call, 1), (inlined, 1)].map(|(driver, side)| {
        let mut out = vec![0.0; POINTS];
        driver(SIDES[side], numbers, &mut out);
        out
    });
    let bits = |out: &[f64]| -> Vec<u64> { out.iter().map(|x| x.to_bits()).collect() };
    let same = outs.iter().all(|out| bits(out) == bits(&outs[0]));
    assert!(same && !outs[0].contains(&0.0), "the sides differ");
    let [a, b, c] = outs.each_mut();
    let batch = |driver: Driver, side: usize, out: &mut [f64]| {
        driver(SIDES[side], black_box(numbers), black_box(out));
    };
    best(
        POINTS,
        [
            &mut || batch(by_call, 0, a),
            &mut || batch(by_call, 1, b),
            &mut || batch(inlined, 1, c),
        ],
    )
}

/// Plain Rust and Rattle, first held to the same numbers, and the Rust with `powf`.
fn inversion_times(hazard: &Hazard) -> [f64; 3] {
    let points = workloads::points();
    let sides = Sides::new(INVERT_CUMULATIVE_HAZARD, hazard);
    let with_powf = Sides::with_powf(INVERT_CUMULATIVE_HAZARD, hazard);
    let [plain, rattle] = [EVALUATIONS[2], EVALUATIONS[3]];
    let mut outs =
        [(plain, &sides), (rattle, &sides), (plain, &with_powf)].map(|(side, hazard)| {
            let mut out = vec![0.0; POINTS];
            side(hazard, &points, &mut out);
            out
        });
    assert!(outs[0] == outs[1], "the sides differ");
    let near = |(a, b): (&f64, &f64)| (a - b).abs() <= 1e-9 * a;
    assert!(outs[0].iter().zip(&outs[2]).all(near), "powf is far off");
    let [a, b, c] = outs.each_mut();
    best(
        POINTS,
        [
            &mut || plain(black_box(&sides), black_box(&points), black_box(a)),
            &mut || rattle(black_box(&sides), black_box(&points), black_box(b)),
            &mut || plain(black_box(&with_powf), black_box(&points), black_box(c)),
        ],
    )
}
