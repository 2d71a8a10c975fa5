//! `bench` times the Rattle libraries against the unchanged Rust: evaluations, sampler, engine; the nearest root beside the processor's,
//! and the rate for a wait beside a model.
//! `bench --engine`: the engine alone. `bench --compare SEED COUNT` compares their answers on random cases, `bench --orders SEED COUNT` on
//! lists of records in several orders, `bench --rates SEED COUNT` the rates for random thresholds and waits with the model's.

#![deny(unsafe_code)]

mod compare;
mod describe;
mod engine_report;
mod engine_workloads;
mod execute_report;
mod formats;
mod numbers;
mod orders;
mod probe;
mod rate_report;
mod rates;
mod report;
mod root_report;
mod rust_side;
mod timing;
mod workloads;

use std::env;
use std::process::ExitCode;

fn main() -> ExitCode {
    let words: Vec<String> = env::args().skip(1).collect();
    let words: Vec<&str> = words.iter().map(String::as_str).collect();
    match words.as_slice() {
        [] => {
            report::print();
            root_report::print();
            rate_report::print();
            engine_report::print();
            execute_report::print();
            ExitCode::SUCCESS
        }
        ["--engine"] => {
            engine_report::print();
            execute_report::print();
            ExitCode::SUCCESS
        }
        [option, seed, count] => match (comparison(option), seed.parse(), count.parse()) {
            (Some(comparison), Ok(seed), Ok(count)) => said(seed, comparison(seed, count)),
            _ => usage(),
        },
        _ => usage(),
    }
}

/// Seed and count; what was compared, or the first difference.
type Comparison = fn(u64, u64) -> Result<String, String>;

fn comparison(option: &str) -> Option<Comparison> {
    match option {
        "--compare" => Some(compare),
        "--orders" => Some(orders),
        "--rates" => Some(rates),
        _ => None,
    }
}

fn compare(seed: u64, count: u64) -> Result<String, String> {
    let shown = compare::run(seed, count)?;
    Ok(format!(
        "{count} evaluations, {count} samples and {count} roots, no difference; {shown}"
    ))
}

fn orders(seed: u64, count: u64) -> Result<String, String> {
    let counts = orders::run(seed, count)?;
    Ok(counts.to_string())
}

fn rates(seed: u64, count: u64) -> Result<String, String> {
    let (chosen, tally) = rates::run(seed, count)?;
    Ok(format!(
        "{chosen} chosen pairs and {count} random ones, no difference; of the random ones {tally}"
    ))
}

fn said(seed: u64, outcome: Result<String, String>) -> ExitCode {
    match outcome {
        Ok(counts) => {
            println!("seed {seed}: {counts}");
            ExitCode::SUCCESS
        }
        Err(difference) => {
            println!("{difference}");
            ExitCode::FAILURE
        }
    }
}

fn usage() -> ExitCode {
    eprintln!(
        "usage: bench [--engine | --compare SEED COUNT | --orders SEED COUNT | --rates SEED COUNT]"
    );
    ExitCode::from(2)
}
