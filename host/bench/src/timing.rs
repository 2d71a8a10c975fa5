//! Times several sides in turn and keeps the best run of each.

use std::time::{Duration, Instant};

pub const RUNS: usize = 150;
/// Short beside the time that a scheduler gives to one process, so that some runs are undisturbed.
const RUN_TIME: Duration = Duration::from_millis(1);

/// Nanoseconds per call of each side. A batch makes `calls` calls.
pub fn best<const N: usize>(calls: usize, mut sides: [&mut dyn FnMut(); N]) -> [f64; N] {
    let repeats = sides.each_mut().map(|side| repeats(&mut **side));
    let mut best = [f64::INFINITY; N];
    for _ in 0..RUNS {
        for ((side, repeats), best) in sides.iter_mut().zip(repeats).zip(&mut best) {
            let taken = run(&mut **side, repeats).as_secs_f64() * 1e9;
            *best = best.min(taken / (repeats as f64 * calls as f64));
        }
    }
    best
}

/// Warms up and finds how many batches fill a run.
fn repeats(side: &mut dyn FnMut()) -> u32 {
    let mut repeats = 1;
    while run(side, repeats) < RUN_TIME {
        repeats *= 2;
    }
    repeats
}

fn run(side: &mut dyn FnMut(), repeats: u32) -> Duration {
    let start = Instant::now();
    for _ in 0..repeats {
        side();
    }
    start.elapsed()
}
