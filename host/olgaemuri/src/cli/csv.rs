//! Answers and events as comma-separated values (RFC 4180, lines ended by a line feed), floats with all their digits.

use super::events::{Event, breakdowns};
use super::report::{Report, Row};
use super::wording::{input_word, why};
use olgaemuri::text::{Names, float_text, hint};
use std::io::{self, Write};

/// What the lines are.
#[derive(Clone, Copy)]
pub enum Csv {
    Answers,
    Events,
    Breakdowns,
}

impl Csv {
    /// The list with this name, or what was expected. Without a name it is the answers.
    pub fn named(name: &str) -> Result<Self, String> {
        match name {
            "" | "answers" => Ok(Self::Answers),
            "events" => Ok(Self::Events),
            "breakdowns" => Ok(Self::Breakdowns),
            _ => {
                let hint = hint(name, &["answers", "events", "breakdowns"]);
                Err(format!(
                    "expected answers, events or breakdowns, not `{name}`{hint}"
                ))
            }
        }
    }

    pub fn write(self, report: &Report, out: &mut dyn Write) -> io::Result<()> {
        match self {
            Self::Answers => write_answers(report, out),
            Self::Events => write_events(report.events(), report.names(), out),
            Self::Breakdowns => write_events(&breakdowns(report.events()), report.names(), out),
        }
    }
}

const ANSWERS_HEAD: &str = "no,line,command,machine,machine_name,now,number,refusal,event,censored,withdrawn,\
    cause,cause_name,delta,ticks,applied,undone_by,text,piece";

const EVENTS_HEAD: &str = "no,machine,machine_name,cause,cause_name,censored,scheduled_at,time,ticks,state,priority,piece";

fn write_answers(report: &Report, out: &mut dyn Write) -> io::Result<()> {
    writeln!(out, "{ANSWERS_HEAD}")?;
    let mut rows = report.rows();
    rows.try_for_each(|row| write_cells(&answer_cells(&row, report.names()), out))
}

fn write_events(events: &[Event], names: &Names, out: &mut dyn Write) -> io::Result<()> {
    writeln!(out, "{EVENTS_HEAD}")?;
    for (event, number) in events.iter().zip(1..) {
        let mut cells = event_cells(number, event, names).to_vec();
        cells.extend([event.priority.to_string(), piece_cell(event.piece())]);
        write_cells(&cells, out)?;
    }
    Ok(())
}

fn write_cells(cells: &[String], out: &mut dyn Write) -> io::Result<()> {
    let cells: Vec<String> = cells.iter().map(|cell| quoted(cell)).collect();
    writeln!(out, "{}", cells.join(","))
}

fn flag(flag: bool) -> String {
    u8::from(flag).to_string()
}

fn answer_cells(row: &Row, names: &Names) -> [String; 19] {
    let (step, answer) = (row.step, &row.step.answer);
    let event = |text: String| if answer.event { text } else { String::new() };
    let now = step.input.command().and_then(|command| command.now());
    [
        row.number.to_string(),
        row.line.to_string(),
        input_word(&step.input).to_string(),
        step.clock
            .map_or(String::new(), |machine| machine.to_string()),
        step.clock
            .map_or(String::new(), |machine| names.machine(machine)),
        now.map_or(String::new(), float_text),
        answer.number().to_string(),
        why(step).unwrap_or_default(),
        flag(answer.event),
        flag(answer.censored),
        flag(answer.withdrawn),
        event(answer.cause.to_string()),
        event(names.cause(answer.cause)),
        event(float_text(answer.delta)),
        event(answer.ticks.to_string()),
        flag(step.applied),
        row.undone_by.map_or(String::new(), |undo| undo.to_string()),
        step.input.to_string().replace('\n', " "),
        piece_cell(row.piece()),
    ]
}

/// The number of a piece; nothing where there is no breakdown.
pub fn piece_cell(piece: Option<u8>) -> String {
    piece.map_or(String::new(), |piece| piece.to_string())
}

/// An event's cells behind a number.
pub fn event_cells(number: u64, event: &Event, names: &Names) -> [String; 10] {
    [
        number.to_string(),
        event.machine.to_string(),
        names.machine(event.machine),
        event.cause.to_string(),
        names.cause(event.cause),
        flag(event.censored),
        float_text(event.scheduled_at),
        float_text(event.time),
        event.ticks.to_string(),
        event.fate.word().to_string(),
    ]
}

/// In quotes where the cell holds a comma, a quote or the end of a line.
pub fn quoted(cell: &str) -> String {
    if cell.contains([',', '"', '\n', '\r']) {
        format!("\"{}\"", cell.replace('"', "\"\""))
    } else {
        cell.to_string()
    }
}

#[cfg(test)]
mod tests {
    use super::*;

    #[test]
    fn cells_are_quoted_where_they_must() {
        assert_eq!(quoted("plain"), "plain");
        assert_eq!(quoted("a,b"), "\"a,b\"");
        assert_eq!(quoted("a\"b"), "\"a\"\"b\"");
    }
}
