//! The curves as tables, as comma-separated values and as JSON.

use super::curves::{Band, Curve, Curves, Strike};
use crate::cli::events::Fate;
use crate::cli::json::{maybe, number, object, string};
use crate::cli::report_table::wrapped;
use crate::cli::table::{Column, write_aligned};
use crate::cli::wording::rounded;
use olgaemuri::text::{float_text, visible};
use std::io::{self, Write};

/// What an age is, for those who look at one.
pub const AGES: &str = "Ages count from the `reschedule` or `resume` that scheduled the breakdown: there the curve begins anew, with \
    what is left of the threshold.";

/// What `at once` is, where a breakdown is so.
pub const AT_ONCE: &str = "At once: at age 0, with piece 0 in the engine's answer. Nothing was left of the threshold, or the wait \
    rounds to 0; so these breakdowns count for no piece.";

const PIECES: [Column; 5] = [
    Column::Right("piece"),
    Column::Right("from"),
    Column::Right("to"),
    Column::Right("rate"),
    Column::Right("breakdowns"),
];

const BREAKDOWNS: [Column; 7] = [
    Column::Right("no"),
    Column::Right("piece"),
    Column::Right("age"),
    Column::Right("scheduled at"),
    Column::Right("at"),
    Column::Right("tick"),
    Column::Left("state"),
];

/// Writes the curves one below another, in at most so many columns where that is said.
pub fn write_table(curves: &Curves, most: Option<usize>, out: &mut dyn Write) -> io::Result<()> {
    let head = format!("{}. {}.", curves.title(), curves.summary());
    write_wrapped(&head, most, out)?;
    for curve in &curves.list {
        write_tables(curve, most, out)?;
    }
    let at_once = curves.has_at_once().then_some(AT_ONCE);
    for words in [AGES].into_iter().chain(at_once) {
        writeln!(out)?;
        write_wrapped(words, most.or(Some(80)), out)?;
    }
    Ok(())
}

/// The pieces of a curve, and its breakdowns.
fn write_tables(curve: &Curve, most: Option<usize>, out: &mut dyn Write) -> io::Result<()> {
    let head = format!("{}, {}:", curve.hazard, curve.set_words());
    writeln!(out)?;
    write_wrapped(&head, most, out)?;
    writeln!(out)?;
    let pieces = || {
        let pieces = curve.bands.iter().map(|band| piece_cells(curve, band));
        pieces.chain(at_once_cells(curve))
    };
    write_aligned(&PIECES, pieces, most, out)?;
    if !curve.strikes.is_empty() {
        writeln!(out)?;
        let strikes = || curve.strikes.iter().map(strike_cells);
        write_aligned(&BREAKDOWNS, strikes, most, out)?;
    }
    Ok(())
}

fn write_wrapped(words: &str, most: Option<usize>, out: &mut dyn Write) -> io::Result<()> {
    let lines = wrapped(&visible(words), most.unwrap_or(usize::MAX));
    let mut lines = lines.iter();
    lines.try_for_each(|line| writeln!(out, "{line}"))
}

fn piece_cells(curve: &Curve, band: &Band) -> Vec<String> {
    vec![
        band.number.to_string(),
        rounded(band.from),
        band.to.map_or("on".to_string(), rounded),
        rate_words(curve, band),
        curve.struck(band).to_string(),
    ]
}

/// The breakdowns at once as a last line, if there are any.
fn at_once_cells(curve: &Curve) -> Option<Vec<String>> {
    let cells = ["at once", "0", "0", "", &curve.at_once().to_string()].map(str::to_string);
    (curve.at_once() > 0).then(|| cells.to_vec())
}

/// The rate of a piece, or how fast it grows.
pub fn rate_words(curve: &Curve, band: &Band) -> String {
    match band.rate {
        Some(rate) => rounded(rate),
        None => format!("{} x age", rounded(curve.rate(band, 1.0))),
    }
}

fn strike_cells(strike: &Strike) -> Vec<String> {
    let event = &strike.event;
    let piece = match strike.is_at_once() {
        true => "at once".to_string(),
        false => strike.piece.to_string(),
    };
    vec![
        strike.number.to_string(),
        piece,
        rounded(strike.age),
        rounded(event.scheduled_at),
        rounded(event.time),
        event.ticks.to_string(),
        event.fate.word().to_string(),
    ]
}

/// Writes a line for each piece of each curve, and one for breakdowns at once where there are any.
pub fn write_csv(curves: &Curves, out: &mut dyn Write) -> io::Result<()> {
    writeln!(out, "curve,piece,from,to,rate,delivered,scheduled")?;
    let mut curves = curves.list.iter().zip(1..);
    curves.try_for_each(|(curve, number)| write_rows(curve, number, out))
}

fn write_rows(curve: &Curve, number: usize, out: &mut dyn Write) -> io::Result<()> {
    let pieces = curve.bands.iter().map(|band| piece_row(curve, band));
    let mut rows = pieces.chain(at_once_row(curve));
    rows.try_for_each(|row| writeln!(out, "{number},{row}"))
}

fn piece_row(curve: &Curve, band: &Band) -> String {
    let cells = [
        band.number.to_string(),
        float_text(band.from),
        band.to.map_or(String::new(), float_text),
        band.rate.map_or(String::new(), float_text),
        curve.count(band, Fate::Delivered).to_string(),
        curve.count(band, Fate::Pending).to_string(),
    ];
    cells.join(",")
}

/// From age 0 to age 0, without a piece and a rate.
fn at_once_row(curve: &Curve) -> Option<String> {
    let [delivered, scheduled] =
        [Fate::Delivered, Fate::Pending].map(|fate| curve.count_at_once(fate));
    (curve.at_once() > 0).then(|| format!(",0,0,,{delivered},{scheduled}"))
}

/// Writes one object, a curve after another.
pub fn write_json(curves: &Curves, out: &mut dyn Write) -> io::Result<()> {
    writeln!(out, "{{\n  \"machine\": {},", curves.machine)?;
    let (machine, cause) = (string(&curves.machine_name), string(&curves.cause_name));
    writeln!(out, "  \"machine_name\": {machine},")?;
    writeln!(out, "  \"cause\": {},", curves.cause)?;
    writeln!(out, "  \"cause_name\": {cause},\n  \"curves\": [")?;
    for (curve, number) in curves.list.iter().zip(1..) {
        let more = if number < curves.list.len() { "," } else { "" };
        write_curve(curve, out)?;
        writeln!(out, "{more}")?;
    }
    writeln!(out, "  ]\n}}")
}

fn write_curve(curve: &Curve, out: &mut dyn Write) -> io::Result<()> {
    let set_at: Vec<String> = curve.set_at.iter().map(|time| number(*time)).collect();
    let pieces = curve.bands.iter().map(|band| piece_object(curve, band));
    let strikes = curve.strikes.iter().map(strike_object);
    writeln!(out, "    {{")?;
    writeln!(
        out,
        "      \"hazard\": {},",
        string(&curve.hazard.to_string())
    )?;
    writeln!(out, "      \"set_at\": [{}],", set_at.join(", "))?;
    write_array("pieces", pieces, out)?;
    writeln!(out, ",")?;
    writeln!(out, "      \"at_once\": {},", at_once_object(curve))?;
    write_array("breakdowns", strikes, out)?;
    write!(out, "\n    }}")
}

/// An array with an element on each line.
fn write_array(
    name: &str,
    elements: impl Iterator<Item = String>,
    out: &mut dyn Write,
) -> io::Result<()> {
    let elements: Vec<String> = elements
        .map(|element| format!("        {element}"))
        .collect();
    let end = if elements.is_empty() { "" } else { "\n      " };
    let begin = if elements.is_empty() { "" } else { "\n" };
    let elements = elements.join(",\n");
    write!(out, "      \"{name}\": [{begin}{elements}{end}]")
}

fn piece_object(curve: &Curve, band: &Band) -> String {
    let count = |fate| curve.count(band, fate).to_string();
    object(&[
        ("piece", band.number.to_string()),
        ("from", number(band.from)),
        ("to", maybe(band.to, number)),
        ("rate", maybe(band.rate, number)),
        ("delivered", count(Fate::Delivered)),
        ("scheduled", count(Fate::Pending)),
    ])
}

fn at_once_object(curve: &Curve) -> String {
    let count = |fate| curve.count_at_once(fate).to_string();
    object(&[
        ("delivered", count(Fate::Delivered)),
        ("scheduled", count(Fate::Pending)),
    ])
}

fn strike_object(strike: &Strike) -> String {
    let event = &strike.event;
    object(&[
        ("no", strike.number.to_string()),
        ("piece", strike.piece.to_string()),
        ("age", number(strike.age)),
        ("scheduled_at", number(event.scheduled_at)),
        ("time", number(event.time)),
        ("ticks", string(&event.ticks.to_string())),
        ("state", string(event.fate.word())),
    ])
}
