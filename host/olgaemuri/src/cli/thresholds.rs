//! `olgaemuri thresholds`: thresholds from a seed, as text or bytes.

use super::arguments::{Arguments, Known};
use super::files::{write_by, write_bytes_by};
use super::numbers::{needed, number};
use super::{Failure, help};
use olgaemuri::Exponential;
use olgaemuri::text::float_text;
use std::io::{self, Write};

pub const OPTIONS: [Known; 5] = [
    Known::valued("--seed"),
    Known::valued("--count"),
    Known::valued("--stream"),
    Known::flag("--bytes"),
    Known::flag("--help"),
];

pub fn thresholds(arguments: &Arguments) -> Result<u8, Failure> {
    let usage = |message: String| Failure::usage(&message, help::THRESHOLDS);
    let seed = needed(arguments, "--seed").map_err(usage)?;
    let count = needed(arguments, "--count").map_err(usage)?;
    let stream = number(arguments, "--stream").map_err(usage)?;
    let file = match arguments.files.as_slice() {
        [] => "-",
        [file] => file,
        _ => return Err(usage("`olgaemuri thresholds` takes one OUT".to_string())),
    };
    let stream = Exponential::new(seed, stream.unwrap_or(0));
    let mut thresholds = (0..count).zip(stream).map(|(_, threshold)| threshold);
    if arguments.has("--bytes") {
        write_bytes_by(file, |out| {
            thresholds.try_for_each(|threshold| bytes(threshold, out))
        })?;
    } else {
        write_by(file, |out| {
            thresholds.try_for_each(|threshold| text(threshold, out))
        })?;
    }
    Ok(0)
}

fn text(threshold: f64, out: &mut dyn Write) -> io::Result<()> {
    writeln!(out, "{}", float_text(threshold))
}

fn bytes(threshold: f64, out: &mut dyn Write) -> io::Result<()> {
    out.write_all(&threshold.to_le_bytes())
}
