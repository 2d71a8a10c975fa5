//! The report as JSON. Ticks are strings, since they may have more digits than a JSON reader's numbers; so are commands, as they
//! stand in the text format. All floats of answers are finite.

use super::events::{Event, breakdowns};
use super::report::{Report, Row};
use super::wording::{input_word, why};
use olgaemuri::text::{Names, float_text, is_obeyed};
use std::io::{self, Write};

/// A string with its quotes, in which a terminal finds nothing to obey.
pub fn string(text: &str) -> String {
    let mut out = String::from("\"");
    for c in text.chars() {
        match c {
            '"' => out.push_str("\\\""),
            '\\' => out.push_str("\\\\"),
            c if is_obeyed(c) => out.push_str(&format!("\\u{:04x}", u32::from(c))),
            c => out.push(c),
        }
    }
    out + "\""
}

/// A finite float; null for another, which no answer has and no accepted command.
pub fn number(value: f64) -> String {
    if value.is_finite() {
        float_text(value)
    } else {
        "null".to_string()
    }
}

pub fn maybe<T>(value: Option<T>, text: impl Fn(T) -> String) -> String {
    value.map_or_else(|| "null".to_string(), text)
}

pub fn object(fields: &[(&str, String)]) -> String {
    let fields: Vec<String> = fields
        .iter()
        .map(|(name, value)| format!("\"{name}\": {value}"))
        .collect();
    format!("{{{}}}", fields.join(", "))
}

/// Writes the report as one object, element after element.
pub fn write_json(report: &Report, out: &mut dyn Write) -> io::Result<()> {
    let (names, outcome) = (report.names(), report.outcome());
    let numbers = [
        ("end", usize::from(outcome.end_number())),
        ("accepted", report.accepted()),
        ("refused", report.refused()),
        ("applied", outcome.applied().len()),
        ("draws", report.session.draws()),
        ("thresholds", report.session.thresholds().len()),
    ];
    writeln!(out, "{{")?;
    for (name, number) in numbers {
        writeln!(out, "  \"{name}\": {number},")?;
    }
    let rows = report.rows().map(|row| row_object(&row, names));
    write_array(out, "answers", rows)?;
    writeln!(out, ",")?;
    let events = report
        .events()
        .iter()
        .map(|event| event_object(event, names));
    write_array(out, "events", events)?;
    writeln!(out, ",")?;
    let list = breakdowns(report.events());
    let list = list.iter().map(|event| event_object(event, names));
    write_array(out, "breakdowns", list)?;
    writeln!(out, "\n}}")
}

/// An array with an element on each line.
fn write_array(
    out: &mut dyn Write,
    name: &str,
    elements: impl Iterator<Item = String>,
) -> io::Result<()> {
    write!(out, "  \"{name}\": [")?;
    let mut any = false;
    for element in elements {
        write!(out, "{}\n    {element}", if any { "," } else { "" })?;
        any = true;
    }
    write!(out, "{}]", if any { "\n  " } else { "" })
}

fn row_object(row: &Row, names: &Names) -> String {
    let (step, answer) = (row.step, &row.step.answer);
    let text = step.input.to_string().replace('\n', " ");
    let now = step.input.command().and_then(|command| command.now());
    let event = |text: String| {
        if answer.event {
            text
        } else {
            "null".to_string()
        }
    };
    object(&[
        ("no", row.number.to_string()),
        ("line", row.line.to_string()),
        ("command", string(input_word(&step.input))),
        ("text", string(&text)),
        ("machine", maybe(step.clock, |machine| machine.to_string())),
        (
            "machine_name",
            maybe(step.clock, |machine| string(&names.machine(machine))),
        ),
        ("now", maybe(now, number)),
        ("number", answer.number().to_string()),
        ("refusal", maybe(why(step), |why| string(&why))),
        ("event", answer.event.to_string()),
        ("censored", answer.censored.to_string()),
        ("withdrawn", answer.withdrawn.to_string()),
        ("cause", event(answer.cause.to_string())),
        ("cause_name", event(string(&names.cause(answer.cause)))),
        ("delta", event(number(answer.delta))),
        ("ticks", event(string(&answer.ticks.to_string()))),
        ("piece", maybe(row.piece(), |piece| piece.to_string())),
        ("applied", step.applied.to_string()),
        ("undone_by", maybe(row.undone_by, |undo| undo.to_string())),
    ])
}

fn event_object(event: &Event, names: &Names) -> String {
    object(&[
        ("machine", event.machine.to_string()),
        ("machine_name", string(&names.machine(event.machine))),
        ("cause", event.cause.to_string()),
        ("cause_name", string(&names.cause(event.cause))),
        ("censored", event.censored.to_string()),
        ("scheduled_at", number(event.scheduled_at)),
        ("time", number(event.time)),
        ("ticks", string(&event.ticks.to_string())),
        ("state", string(event.fate.word())),
        ("priority", event.priority.to_string()),
        ("piece", maybe(event.piece(), |piece| piece.to_string())),
    ])
}
