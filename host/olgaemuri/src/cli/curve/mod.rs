//! `olgaemuri curve`: the rate curve of a cause, its pieces, and the breakdowns in each.

mod asked;
mod axes;
mod curves;
mod picture;
mod shown;

use super::arguments::{Arguments, Known};
use super::files::{same_file, write_by};
use super::report::Report;
use super::run::{reported, width};
use super::table::text_of;
use super::{Failure, help};
use asked::Asked;
use curves::curves;
use picture::write_picture;
use shown::{write_csv, write_json, write_table};

pub const OPTIONS: [Known; 6] = [
    Known::flag("--csv"),
    Known::flag("--json"),
    Known::valued("--svg"),
    Known::valued("--title"),
    Known::valued("--width"),
    Known::flag("--help"),
];

pub fn curve(arguments: &Arguments) -> Result<u8, Failure> {
    let usage = |message: String| Failure::usage(&message, help::CURVE);
    let [file, machine, cause] = words(arguments).map_err(|message| usage(message.to_string()))?;
    let width = width(arguments).map_err(usage)?;
    let report = reported(file)?;
    let asked = Asked::of(&report, machine, cause)?;
    let curves = curves(&report, &asked);
    let picture = arguments.value("--svg");
    if picture != Some("-") {
        write_by("-", |out| {
            if arguments.has("--csv") {
                write_csv(&curves, out)
            } else if arguments.has("--json") {
                write_json(&curves, out)
            } else {
                write_table(&curves, width, out)
            }
        })?;
    }
    if let Some(place) = picture {
        let title = arguments.value("--title").map(str::to_string);
        let title = title.unwrap_or_else(|| curves.title());
        write_by(place, |out| write_picture(&curves, &title, out))?;
    }
    Ok(0)
}

/// The table for one who types a session, or what is wrong with what stands behind `curve`. A comment may follow.
pub fn told(report: &Report, rest: &str, width: Option<usize>) -> String {
    let words = typed_words(rest);
    let [machine, cause] = words.as_slice() else {
        return "`curve` takes a machine and a cause; names with spaces stand in quotes"
            .to_string();
    };
    match Asked::of(report, machine, cause) {
        Ok(asked) => {
            let curves = curves(report, &asked);
            let table = text_of(|out| write_table(&curves, width, out));
            table.trim_end().to_string()
        }
        Err(Failure(message)) => message,
    }
}

/// The words up to a comment, of which those in quotes may have spaces.
fn typed_words(rest: &str) -> Vec<&str> {
    let mut words = Vec::new();
    let mut rest = rest.trim_start();
    while !rest.is_empty() && !rest.starts_with('#') {
        let quoted = rest.strip_prefix('"').and_then(|rest| rest.find('"'));
        let end = match quoted {
            Some(end) => end + 2,
            None => rest.find(char::is_whitespace).unwrap_or(rest.len()),
        };
        words.push(&rest[..end]);
        rest = rest[end..].trim_start();
    }
    words
}

/// The file, the machine and the cause, or what is wrong with the words.
fn words(arguments: &Arguments) -> Result<[&str; 3], &'static str> {
    let words: Vec<&str> = arguments.files.iter().map(String::as_str).collect();
    let picture = arguments.value("--svg");
    let Ok(words) = <[&str; 3]>::try_from(words) else {
        return Err(
            "`olgaemuri curve` takes FILE, MACHINE and CAUSE; names with spaces stand in quotes",
        );
    };
    if arguments.has("--csv") && arguments.has("--json") {
        Err("`--csv` and `--json` do not go together")
    } else if arguments.has("--title") && picture.is_none() {
        Err("`--title` needs `--svg OUT`: it is the picture's")
    } else if picture.is_some_and(|out| same_file(words[0], out)) {
        Err("`--svg` names the session itself, which the picture would write over")
    } else {
        Ok(words)
    }
}

#[cfg(test)]
mod tests {
    use super::*;

    #[test]
    fn words_in_quotes() {
        for (rest, words) in [
            ("", &[][..]),
            (" 0 1 # a comment", &["0", "1"]),
            ("  \"punch 1\"  clutch ", &["\"punch 1\"", "clutch"]),
            (" \"a # b\" \"\"", &["\"a # b\"", "\"\""]),
            (" \"no end", &["\"no", "end"]),
            ("\"プ\"x y", &["\"プ\"", "x", "y"]),
        ] {
            assert_eq!(typed_words(rest), words, "{rest}");
        }
    }
}
