//! `olgaemuri run`: a session run, its answers printed.

use super::arguments::{Arguments, Known};
use super::csv::Csv;
use super::files::{called, load, same_file, write_by};
use super::json::write_json;
use super::progress::watched;
use super::report::Report;
use super::report_table::write_report;
use super::svg::write_picture;
use super::{Failure, help, terminal};
use std::path::Path;

pub const OPTIONS: [Known; 8] = [
    Known::perhaps_valued("--csv"),
    Known::flag("--json"),
    Known::flag("--quiet"),
    Known::flag("--strict"),
    Known::valued("--svg"),
    Known::valued("--title"),
    Known::valued("--width"),
    Known::flag("--help"),
];

/// Exits with 1 where a command was refused and `--strict` asks for that.
pub fn run(arguments: &Arguments) -> Result<u8, Failure> {
    let usage = |message: String| Failure::usage(&message, help::RUN);
    let file = session_file(arguments).map_err(|message| usage(message.to_string()))?;
    let csv = arguments.value("--csv").map(Csv::named).transpose();
    let (csv, width) = (csv.map_err(usage)?, width(arguments).map_err(usage)?);
    let report = reported(file)?;
    let picture_place = arguments.value("--svg");
    if picture_place != Some("-") && !arguments.has("--quiet") {
        write_by("-", |out| match csv {
            Some(csv) => csv.write(&report, out),
            None if arguments.has("--json") => write_json(&report, out),
            None => write_report(&report, width, out),
        })?;
    }
    if let Some(place) = picture_place {
        let title = arguments
            .value("--title")
            .map_or_else(|| default_title(file), str::to_string);
        write_by(place, |out| write_picture(&report, &title, out))?;
    }
    let refused = arguments.has("--strict") && report.refused() > 0;
    Ok(u8::from(refused))
}

/// The columns that a table may have: as asked for, or those of the terminal.
pub fn width(arguments: &Arguments) -> Result<Option<usize>, String> {
    let Some(word) = arguments.value("--width") else {
        return Ok(terminal::width());
    };
    let width = word.parse().ok().filter(|width| *width >= NARROWEST);
    let expected =
        || format!("expected a whole number of columns, {NARROWEST} or more, not `{word}`");
    width.map(Some).ok_or_else(expected)
}

/// With names cut and numbers of common length every table has room in so many columns.
const NARROWEST: usize = 64;

/// The one file that is to be run, or what is wrong with the words.
fn session_file(arguments: &Arguments) -> Result<&str, &'static str> {
    let [file] = arguments.files.as_slice() else {
        return Err("`olgaemuri run` takes one FILE, or - for standard input");
    };
    let picture = arguments.value("--svg");
    let forms = ["--csv", "--json", "--quiet"].map(|form| usize::from(arguments.has(form)));
    if arguments.has("--csv") && arguments.has("--json") {
        Err("`--csv` and `--json` do not go together")
    } else if forms.iter().sum::<usize>() > 1 {
        Err("`--quiet` prints no table: it does not go with `--csv` or `--json`")
    } else if arguments.has("--title") && picture.is_none() {
        Err("`--title` needs `--svg OUT`: it is the picture's")
    } else if picture.is_some_and(|out| same_file(file, out)) {
        Err("`--svg` names the session itself, which the picture would write over")
    } else {
        Ok(file)
    }
}

/// Loads and runs a session.
pub fn reported(file: &str) -> Result<Report, Failure> {
    let text = watched("reading the session", || load(file))?;
    Ok(watched("running the commands", || Report::of_run(text)))
}

/// The file's name without its folder.
pub fn default_title(file: &str) -> String {
    let name = Path::new(called(file)).file_name();
    name.map_or_else(String::new, |name| name.to_string_lossy().into_owned())
}
