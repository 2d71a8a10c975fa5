//! The tables of a report: every command with its answer, then the breakdowns.

use super::events::{Event, breakdowns};
use super::report::{Report, Row};
use super::table::{Column, Table, write_aligned};
use super::wording::{self, counted};
use olgaemuri::Piece;
use olgaemuri::text::{Names, columns, visible};
use std::io::{self, Write};

/// Writes everything that `run` prints, in at most so many columns where that is said.
pub fn write_report(report: &Report, most: Option<usize>, out: &mut dyn Write) -> io::Result<()> {
    write_answers(report, most, out)?;
    let list = breakdowns(report.events());
    let summary = summary(report);
    let lines = summary
        .iter()
        .flat_map(|line| wrapped(line, most.unwrap_or(usize::MAX)));
    let summary: String = lines.map(|line| line + "\n").collect();
    writeln!(out, "\n{summary}\nBreakdowns, delivered and scheduled:\n")?;
    write_breakdowns(&list, report.names(), most, out)
}

const COLUMNS: [Column; 12] = [
    Column::Right("no"),
    Column::Right("line"),
    Column::Right("now"),
    Column::Name("machine"),
    Column::Left("command"),
    Column::Left("operands"),
    Column::Left("answer"),
    Column::Name("cause"),
    Column::Right("piece"),
    Column::Right("after"),
    Column::Right("tick"),
    Column::Left("note"),
];

/// The places of the line's number, which is left out where there is little room, and of what stands below the others then. Pieces
/// have a column where a breakdown falls in one.
const LINE: usize = 1;
const OPERANDS: usize = 5;
const PIECE: usize = 8;
const NOTE: usize = 11;

/// The rows are made twice, to find the columns' widths and to be written, so that they need not be kept.
fn write_answers(report: &Report, most: Option<usize>, out: &mut dyn Write) -> io::Result<()> {
    let whole = || report.rows().map(|row| cells(&row, report.names()));
    let shortened = |mut row: Vec<String>| {
        row[OPERANDS] = wording::shortened(&row[OPERANDS]);
        row
    };
    let rows = || whole().map(shortened);
    let mut table = Table::new(&COLUMNS);
    rows().for_each(|row| table.look_at(&row));
    let has_pieces = report.rows().any(|row| row.step.struck().is_some());
    let is_shown = |place: usize| has_pieces || place != PIECE;
    let wide = table.only(is_shown);
    match most.filter(|most| wide.width() > *most) {
        Some(most) => write_narrow(&table, whole(), most, out),
        None => {
            wide.write_head(out)?;
            rows().try_for_each(|row| wide.write_row(out, &kept(row, is_shown)))
        }
    }
}

/// The cells of a row at these places.
fn kept(row: Vec<String>, keep: impl Fn(usize) -> bool) -> Vec<String> {
    let cells = (0..).zip(row).filter(|(place, _)| keep(*place));
    cells.map(|(_, cell)| cell).collect()
}

/// Operands, piece and note stand in lines of their own, below the rest.
fn write_narrow(
    table: &Table,
    rows: impl Iterator<Item = Vec<String>>,
    most: usize,
    out: &mut dyn Write,
) -> io::Result<()> {
    let is_beside = |place: usize| ![LINE, OPERANDS, PIECE, NOTE].contains(&place);
    let mut table = table.only(is_beside);
    table.narrow(most);
    table.write_head(out)?;
    for mut row in rows {
        if !row[PIECE].is_empty() {
            row[PIECE].insert_str(0, "piece ");
        }
        let below = [OPERANDS, PIECE, NOTE].map(|place| row[place].clone());
        let below: Vec<String> = below.into_iter().filter(|cell| !cell.is_empty()).collect();
        table.write_row(out, &kept(row, is_beside))?;
        for line in wrapped(
            &visible(&below.join("; ")),
            most.saturating_sub(INDENT.len()),
        ) {
            writeln!(out, "{INDENT}{line}")?;
        }
    }
    Ok(())
}

const INDENT: &str = "        ";

/// The words in lines of at most so many columns, or of one word.
pub fn wrapped(words: &str, most: usize) -> Vec<String> {
    let mut lines: Vec<String> = Vec::new();
    for word in words.split(' ').filter(|word| !word.is_empty()) {
        match lines.last_mut() {
            Some(line) if columns(line) + 1 + columns(word) <= most => {
                *line += " ";
                *line += word;
            }
            _ => lines.push(word.to_string()),
        }
    }
    lines
}

fn cells(row: &Row, names: &Names) -> Vec<String> {
    let (step, answer) = (row.step, &row.step.answer);
    let now = step.input.command().and_then(|command| command.now());
    let event = |text: String| if answer.event { text } else { String::new() };
    vec![
        row.number.to_string(),
        row.line.to_string(),
        now.map_or(String::new(), wording::rounded),
        step.clock
            .map_or(String::new(), |machine| names.machine(machine)),
        wording::input_word(&step.input).to_string(),
        wording::operands(&step.input, names),
        wording::answer(row),
        event(names.cause(answer.cause)),
        struck_cell(step.struck()),
        event(wording::rounded(answer.delta)),
        event(answer.ticks.to_string()),
        wording::note(row),
    ]
}

/// How many commands were what, and the draws; perhaps where the run ended.
fn summary(report: &Report) -> Vec<String> {
    let given = counted(report.given(), "command");
    let (accepted, refused, undone) = (report.accepted(), report.refused(), report.undone());
    let (applied, draws) = (report.outcome().applied().len(), report.session.draws());
    let thresholds = report.session.thresholds().len();
    let mut lines = vec![format!(
        "{given}: {accepted} accepted, {refused} refused; {undone} taken back, {applied} in force. \
         Thresholds drawn: {draws} of {thresholds}."
    )];
    if report.outcome().end.is_some_and(wording::ends_run) {
        let unread = counted(report.unread() as usize, "byte");
        let are = if report.unread() == 1 { "is" } else { "are" };
        lines.push(format!(
            "The run ended at the last command shown: {unread} from there on {are} no whole command."
        ));
    }
    lines
}

/// The number of the piece in which a breakdown falls, where its cause's hazard has pieces.
fn struck_cell(struck: Option<Piece>) -> String {
    struck.map_or(String::new(), |piece| piece.number.to_string())
}

/// Pieces have a column where a breakdown falls in one, priorities where one of them is not 0.
pub fn write_breakdowns(
    events: &[Event],
    names: &Names,
    most: Option<usize>,
    out: &mut dyn Write,
) -> io::Result<()> {
    if events.is_empty() {
        return writeln!(out, "none");
    }
    let has_pieces = events.iter().any(|event| event.struck.is_some());
    let has_priorities = events.iter().any(|event| event.priority != 0);
    let is_shown = |place: usize| match EVENT_COLUMNS[place] {
        Column::Right("piece") => has_pieces,
        Column::Right("priority") => has_priorities,
        _ => true,
    };
    let columns = (0..EVENT_COLUMNS.len()).filter(|place| is_shown(*place));
    let columns: Vec<Column> = columns.map(|place| EVENT_COLUMNS[place]).collect();
    let cells = |(event, number): (&Event, usize)| {
        let [machine, cause, time, ticks, state] = event_cells(event, names);
        let (piece, priority) = (struck_cell(event.struck), event.priority.to_string());
        let front = [number.to_string(), machine, cause, piece];
        let cells = front.into_iter().chain([time, ticks, state, priority]);
        kept(cells.collect(), is_shown)
    };
    write_aligned(&columns, || events.iter().zip(1..).map(cells), most, out)
}

const EVENT_COLUMNS: [Column; 8] = [
    Column::Right("no"),
    Column::Name("machine"),
    Column::Name("cause"),
    Column::Right("piece"),
    Column::Right("at"),
    Column::Right("tick"),
    Column::Left("state"),
    Column::Right("priority"),
];

/// Machine, cause, time, tick, state.
pub fn event_cells(event: &Event, names: &Names) -> [String; 5] {
    [
        names.machine(event.machine),
        names.cause(event.cause),
        wording::rounded(event.time),
        event.ticks.to_string(),
        event.fate.word().to_string(),
    ]
}
