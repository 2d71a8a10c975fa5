//! `powf SEED COUNT`: how near the Rust's own Weibull of shape 2, with its `powf`, comes to kind 4 of document 02, in COUNT random hazards,
//! cumulative hazards and waits of each sort. `powf` is the C library's `pow`.

use cases::powf_tally::{SORTS, Tally};
use cases::random::Random;
use std::env;
use std::process::ExitCode;

fn main() -> ExitCode {
    let words: Vec<String> = env::args().skip(1).collect();
    let numbers: Vec<u64> = words.iter().filter_map(|word| word.parse().ok()).collect();
    let ([_, _], &[seed, count]) = (words.as_slice(), numbers.as_slice()) else {
        eprintln!("usage: powf SEED COUNT");
        return ExitCode::from(2);
    };
    for (name, draw) in SORTS {
        let mut random = Random::new(seed);
        let mut tally = Tally::default();
        (0..count).for_each(|_| tally.add(draw(&mut random)));
        println!("seed {seed}, {count} of {name}:\n{tally}");
    }
    ExitCode::SUCCESS
}
