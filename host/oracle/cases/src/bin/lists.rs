//! Writes the fixed lists to a folder and prints their counts.

use cases::rate_tally::RateTally;
use cases::{command_tally, lists, tally};
use std::path::Path;
use std::process::ExitCode;
use std::{env, fs, io};

fn main() -> ExitCode {
    let Some(folder) = env::args_os().nth(1) else {
        eprintln!("usage: lists FOLDER");
        return ExitCode::from(2);
    };
    match write(Path::new(&folder)) {
        Ok(()) => ExitCode::SUCCESS,
        Err(error) => {
            eprintln!("lists: {error}");
            ExitCode::FAILURE
        }
    }
}

fn write(folder: &Path) -> io::Result<()> {
    fs::create_dir_all(folder)?;
    write_evaluations(folder)?;
    write_samples(folder)?;
    write_rates(folder)?;
    write_clock_steps(folder)?;
    write_sessions(folder)
}

fn write_evaluations(folder: &Path) -> io::Result<()> {
    let evaluations = lists::evaluations();
    let bytes = lists::evaluation_bytes(&evaluations);
    fs::write(folder.join("evaluations.bin"), &bytes)?;
    let (count, seed) = (evaluations.len(), lists::EVALUATION_SEED);
    let tally = tally::evaluations(&evaluations);
    println!("evaluations.bin: {count} cases, seed {seed:#x}; {tally}");
    Ok(())
}

fn write_samples(folder: &Path) -> io::Result<()> {
    let samples = lists::samples();
    fs::write(folder.join("samples.bin"), lists::sample_bytes(&samples))?;
    let (count, seed) = (samples.len(), lists::SAMPLE_SEED);
    let tally = tally::samples(&samples);
    println!("samples.bin: {count} cases, seed {seed:#x}; {tally}");
    Ok(())
}

fn write_rates(folder: &Path) -> io::Result<()> {
    let pairs = lists::rates();
    fs::write(folder.join("rates.bin"), lists::rate_bytes(&pairs))?;
    let (count, seed) = (pairs.len(), lists::RATE_SEED);
    let tally = RateTally::of(&pairs);
    println!("rates.bin: {count} cases, seed {seed:#x}; {tally}");
    Ok(())
}

fn write_clock_steps(folder: &Path) -> io::Result<()> {
    let stream = lists::clock_stream();
    fs::write(folder.join("clock_stream.bin"), &stream)?;
    let steps = lists::clock_steps();
    fs::write(
        folder.join("clock_steps.bin"),
        lists::clock_step_bytes(&steps),
    )?;
    let (count, seed, thresholds) = (steps.len(), lists::CLOCK_SEED, stream.len() / 8);
    let tally = command_tally::clock_steps(&steps);
    println!("clock_stream.bin: {thresholds} thresholds");
    println!("clock_steps.bin: {count} steps, seed {seed:#x}; {tally}");
    Ok(())
}

fn write_sessions(folder: &Path) -> io::Result<()> {
    let sessions = lists::sessions();
    let bytes = lists::session_bytes(&sessions);
    fs::write(folder.join("sessions.bin"), &bytes)?;
    let (count, seed, length) = (sessions.len(), lists::SESSION_SEED, bytes.len());
    let tally = command_tally::sessions(&sessions);
    println!("sessions.bin: {count} sessions, {length} bytes, seed {seed:#x}; {tally}");
    Ok(())
}
