//! What is shown of a session while it is typed.

use crate::cli::report::Report;
use crate::cli::report_table::write_breakdowns;
use crate::cli::table::{Column, aligned, text_of};
use crate::cli::wording::told;
use olgaemuri::text::columns;
use std::iter;

/// What lines did: the answers behind this many rows, with the commands where these are done again; or that they were noted, where
/// they are no commands.
pub fn answers(report: &Report, known: usize, again: bool) -> String {
    let answers = report.rows_behind(known).map(|row| {
        let told = told(report, &row);
        match (again, told.as_str()) {
            (false, _) => told,
            (true, "done") => format!("done again: {}", row.step.input),
            (true, told) => format!("done again: {}; {told}", row.step.input),
        }
    });
    match answers.collect::<Vec<String>>().join("\n") {
        none if none.is_empty() => "noted".to_string(),
        answers => answers,
    }
}

/// How many commands are in force, what is scheduled, how many thresholds are drawn.
pub fn status(report: &Report) -> String {
    let names = report.names();
    let pending = report.outcome().pending().into_iter().map(|event| {
        let (machine, cause) = (names.machine(event.clock), names.cause(event.cause));
        format!("{machine} by {cause} at tick {}", event.ticks)
    });
    let pending: Vec<String> = pending.collect();
    let scheduled = match pending.as_slice() {
        [] => "nothing".to_string(),
        events => events.join(", "),
    };
    let applied = report.outcome().applied().len();
    format!(
        "  in force: {applied}; scheduled: {scheduled}; {}",
        draws(report).to_lowercase()
    )
}

/// The commands in force, the scheduled events and the draws, in at most so many columns where that is said and as far as it goes.
pub fn list(report: &Report, most: Option<usize>) -> String {
    let applied = report.outcome().applied();
    let room = most.map(|most| most.saturating_sub(applied.len().to_string().len().max(2) + 2));
    let rows = (1..).zip(applied).flat_map(|(number, applied)| {
        let lines = folded(&applied.command.to_string(), room.unwrap_or(usize::MAX));
        numbered(number, lines)
    });
    let commands = aligned(
        &[Column::Right("no"), Column::Left("command in force")],
        &rows.collect::<Vec<_>>(),
        most,
    );
    let events: Vec<_> = report
        .outcome()
        .pending()
        .into_iter()
        .map(Into::into)
        .collect();
    let events = text_of(|out| write_breakdowns(&events, report.names(), most, out));
    format!(
        "{commands}\nScheduled, in the order of delivery:\n\n{events}\n{}",
        draws(report)
    )
}

/// The lines of a command in rows, of which the first has its number.
fn numbered(number: usize, lines: Vec<String>) -> impl Iterator<Item = Vec<String>> {
    let numbers = iter::once(number.to_string()).chain(iter::repeat(String::new()));
    numbers.zip(lines).map(|(number, line)| vec![number, line])
}

/// A command in lines of at most so many columns, which end at a space or behind a comma; a longer line has neither.
fn folded(command: &str, most: usize) -> Vec<String> {
    let mut lines: Vec<String> = Vec::new();
    for part in command.split_inclusive([' ', ',']) {
        match lines.last_mut() {
            Some(line) if columns(line) + columns(part.trim_end()) <= most => *line += part,
            _ => lines.push(part.to_string()),
        }
    }
    let lines = lines.iter().map(|line| line.trim_end().to_string());
    lines.collect()
}

fn draws(report: &Report) -> String {
    let (draws, thresholds) = (report.session.draws(), report.session.thresholds().len());
    format!("Thresholds drawn: {draws} of {thresholds}")
}

#[cfg(test)]
mod tests {
    use super::*;

    #[test]
    fn commands_are_folded() {
        let command = "set now=0 pieces=1:2,3:4 then=5";
        for (most, expected) in [
            (31, &[command][..]),
            (30, &["set now=0 pieces=1:2,3:4", "then=5"]),
            (21, &["set now=0 pieces=1:2,", "3:4 then=5"]),
            (3, &["set", "now=0", "pieces=1:2,", "3:4", "then=5"]),
        ] {
            assert_eq!(folded(command, most), expected);
        }
    }
}
