//! The legend: items in rows, each a sample and its words.

use super::marks::Palette;
use super::spans::Condition;
use super::xml::{rectangle, text};
use crate::cli::events::{Event, Fate};
use olgaemuri::NO_CAUSE;
use olgaemuri::text::Names;

/// What an item shows.
#[derive(Clone, Copy)]
enum Sample {
    Condition(Condition),
    Ahead,
    Cause(u32),
    Fate(Fate),
    Piece,
}

type Item = (Sample, String);

/// Room for a letter, on average.
const LETTER: f64 = 7.4;

const ROW: f64 = 26.0;

/// The legend from this height on, between two borders, and the height after it.
pub fn legend(
    events: &[Event],
    palette: &Palette,
    names: &Names,
    borders: (f64, f64),
    top: f64,
) -> (String, f64) {
    let mut out = String::new();
    let mut y = top;
    for group in [conditions(), causes(events, palette, names), fates(events)] {
        let (text, bottom) = rows(&group, palette, borders, y);
        out += &text;
        y = bottom;
    }
    (out, y)
}

/// The items of a group in as many rows as they need.
fn rows(items: &[Item], palette: &Palette, borders: (f64, f64), top: f64) -> (String, f64) {
    let (left, right) = borders;
    let (mut out, mut x, mut y) = (String::new(), left, top);
    for (sample, words) in items {
        let width = 56.0 + LETTER * words.chars().count() as f64;
        if x + width > right && x > left {
            (x, y) = (left, y + ROW);
        }
        out += &drawn(sample, palette, x + 12.0, y);
        out += &text("legend", x + 32.0, y + 4.5, words);
        x += width;
    }
    (out, if items.is_empty() { top } else { y + ROW })
}

fn conditions() -> Vec<Item> {
    let item = |condition: Condition| (Sample::Condition(condition), condition.word().to_string());
    let ahead = (Sample::Ahead, "pale: after the last command".to_string());
    Condition::ALL
        .map(item)
        .into_iter()
        .chain([ahead])
        .collect()
}

/// The causes, and the end of observation if there is any.
fn causes(events: &[Event], palette: &Palette, names: &Names) -> Vec<Item> {
    let causes = palette
        .causes()
        .iter()
        .map(|cause| (Sample::Cause(*cause), names.cause(*cause)));
    let censored = events.iter().any(|event| event.censored);
    let censored = censored.then(|| {
        (
            Sample::Cause(NO_CAUSE),
            "end of observation (censored)".to_string(),
        )
    });
    causes.chain(censored).collect()
}

/// What became of an event, and the number in its mark if there is any.
fn fates(events: &[Event]) -> Vec<Item> {
    let item = |(fate, words): (Fate, &str)| (Sample::Fate(fate), words.to_string());
    let fates = [
        (Fate::Delivered, "filled: delivered"),
        (Fate::Pending, "hollow: scheduled"),
        (Fate::Withdrawn, "crossed out, above the bar: withdrawn"),
    ];
    let is_numbered = |event: &Event| event.struck.is_some() && event.fate != Fate::Withdrawn;
    let piece = events.iter().any(is_numbered).then(|| {
        let words = "number: piece of the cause's rate curve, from 0";
        (Sample::Piece, words.to_string())
    });
    fates.map(item).into_iter().chain(piece).collect()
}

fn drawn(sample: &Sample, palette: &Palette, x: f64, y: f64) -> String {
    let mark = match sample {
        Sample::Condition(condition) => return bar(*condition, condition.class(), x, y),
        Sample::Ahead => {
            let running = Condition::Running;
            return bar(running, running.class(), x, y) + &bar(running, "ahead", x, y);
        }
        Sample::Cause(cause) => palette.mark(*cause, Fate::Delivered, x, y),
        Sample::Fate(fate) => Palette::neutral_mark(*fate, x, y),
        Sample::Piece => Palette::neutral_numbered_mark(1, x, y),
    };
    mark + "\n"
}

/// A sample of a span's bar, drawn as this class says.
fn bar(condition: Condition, class: &str, x: f64, y: f64) -> String {
    let height = bar_height(condition);
    rectangle(class, x - 12.0, y - height / 2.0, 24.0, height)
}

/// The height of a span's bar.
pub fn bar_height(condition: Condition) -> f64 {
    match condition {
        Condition::Running | Condition::Paused => 14.0,
        Condition::Down => 3.0,
    }
}
