//! The command line: which subcommand is meant, and the exit status. 0 is success, refused commands among it; 1 a comparison that
//! found a difference, refused commands where that is asked for, or a wait that no rate gives; 2 a bad file or a bad command line,
//! numbers outside a rate's limits among it.

mod arguments;
mod compare;
mod convert;
mod csv;
mod curve;
mod events;
mod files;
mod help;
mod interactive;
mod json;
mod nearest_rates;
mod numbers;
mod out_of_range;
mod progress;
mod rate;
mod report;
mod report_table;
mod run;
mod svg;
mod sweep;
mod table;
mod terminal;
mod thresholds;
mod wording;

use arguments::{Arguments, Known};
use olgaemuri::text::visible;
use std::ffi::OsString;
use std::io::{IsTerminal, Write, stderr, stdin};
use std::path::Path;
use std::process::ExitCode;

/// Why nothing could be done; for people.
pub struct Failure(String);

impl Failure {
    /// A wrong command line: what is wrong, and where to read on.
    fn usage(message: &str, help: &str) -> Self {
        let usage = help.split("\n\n").next().unwrap_or_default();
        Self(format!("{message}\n{usage}\n`olgaemuri --help` tells more"))
    }
}

impl From<String> for Failure {
    fn from(message: String) -> Self {
        Self(message)
    }
}

const SUBCOMMANDS: [&str; 10] = [
    "run",
    "compare",
    "convert",
    "interactive",
    "thresholds",
    "sweep",
    "summary",
    "rate",
    "curve",
    "help",
];

const HELP_ONLY: [Known; 1] = [Known::flag("--help")];

pub fn main(words: impl Iterator<Item = OsString>) -> ExitCode {
    let words: Result<Vec<String>, OsString> = words.map(OsString::into_string).collect();
    let status = words
        .map_err(|word| Failure(format!("the word {} is no UTF-8", word.to_string_lossy())))
        .and_then(|words| dispatch(&words));
    match status {
        Ok(status) => ExitCode::from(status),
        Err(Failure(message)) => {
            tell(&message);
            ExitCode::from(2)
        }
    }
}

/// Tells it on standard error. Where that cannot be written, the status is all that is left.
fn tell(message: &str) {
    let _ = writeln!(stderr(), "{}", visible(message));
}

fn dispatch(words: &[String]) -> Result<u8, Failure> {
    let Some((first, rest)) = words.split_first() else {
        return without_words();
    };
    match first.as_str() {
        "run" => with(rest, &run::OPTIONS, help::RUN, run::run),
        "compare" => with(rest, &compare::OPTIONS, help::COMPARE, compare::compare),
        "convert" => with(rest, &convert::OPTIONS, help::CONVERT, convert::convert),
        "interactive" => with(
            rest,
            &HELP_ONLY,
            help::INTERACTIVE,
            interactive::interactive,
        ),
        "thresholds" => with(
            rest,
            &thresholds::OPTIONS,
            help::THRESHOLDS,
            thresholds::thresholds,
        ),
        "sweep" => with(rest, &sweep::OPTIONS, help::SWEEP, sweep::sweep),
        "summary" => with(rest, &sweep::SUMMARY_OPTIONS, help::SUMMARY, sweep::summary),
        "rate" => with(rest, &rate::OPTIONS, help::RATE, rate::rate),
        "curve" => with(rest, &curve::OPTIONS, help::CURVE, curve::curve),
        "help" | "--help" | "-h" => help::show(rest.first().map(String::as_str)),
        "--version" | "-V" => {
            files::write(
                "-",
                concat!("olgaemuri ", env!("CARGO_PKG_VERSION"), "\n").as_bytes(),
            )?;
            Ok(0)
        }
        other => Err(unknown(other)),
    }
}

/// A first word that is no subcommand; a session's name is probably one to be run.
fn unknown(word: &str) -> Failure {
    let otherwise = if Path::new(word).is_file() {
        format!("; did you mean `olgaemuri run {word}`?")
    } else {
        String::new()
    };
    let hint = olgaemuri::text::hint_or(word, &SUBCOMMANDS, &otherwise);
    Failure::usage(&format!("unknown subcommand `{word}`{hint}"), help::GENERAL)
}

/// On a terminal a session begins; elsewhere nobody is there to type one.
fn without_words() -> Result<u8, Failure> {
    if stdin().is_terminal() {
        return interactive::interactive(&Arguments::default());
    }
    Err(Failure::usage("a subcommand is missing", help::GENERAL))
}

/// Runs a subcommand, or shows its help where that is asked for.
fn with(
    words: &[String],
    known: &[Known],
    help: &str,
    subcommand: impl Fn(&Arguments) -> Result<u8, Failure>,
) -> Result<u8, Failure> {
    if words.iter().any(|word| word == "--help" || word == "-h") {
        files::write("-", help.as_bytes())?;
        return Ok(0);
    }
    let arguments =
        Arguments::parse(words, known).map_err(|message| Failure::usage(&message, help))?;
    subcommand(&arguments)
}
