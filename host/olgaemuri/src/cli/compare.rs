//! `olgaemuri compare`: the breakdowns of two sessions side by side.

use super::arguments::{Arguments, Known};
use super::events::{Event, breakdowns};
use super::files::{called, write_by};
use super::report_table::event_cells;
use super::run::{reported, width};
use super::table::{Column, Table, write_aligned};
use super::wording::counted;
use super::{Failure, help};
use olgaemuri::text::{Names, visible};
use std::io::{self, Write};

pub const OPTIONS: [Known; 3] = [
    Known::flag("--quiet"),
    Known::valued("--width"),
    Known::flag("--help"),
];

/// Exits with 1 where the lists differ.
pub fn compare(arguments: &Arguments) -> Result<u8, Failure> {
    let [first, second] = arguments.files.as_slice() else {
        return Err(Failure::usage(
            "`olgaemuri compare` takes two FILEs",
            help::COMPARE,
        ));
    };
    if first == "-" && second == "-" {
        return Err(Failure::usage(
            "only one FILE can be standard input",
            help::COMPARE,
        ));
    }
    let width = width(arguments).map_err(|message| Failure::usage(&message, help::COMPARE))?;
    let sides = [Side::of(first)?, Side::of(second)?];
    let places = Places(&sides);
    let differences = places.differences();
    let head = format!("left:  {}\nright: {}\n\n", called(first), called(second));
    if !arguments.has("--quiet") {
        write_by("-", |out| {
            write!(out, "{}", visible(&head))?;
            places.write_table(width, out)?;
            write!(out, "\n{}", places.verdict(differences))
        })?;
    }
    Ok(u8::from(differences > 0))
}

/// What is compared of a session.
struct Side {
    breakdowns: Vec<Event>,
    names: Names,
    draws: usize,
}

impl Side {
    fn of(file: &str) -> Result<Self, Failure> {
        let report = reported(file)?;
        Ok(Self {
            breakdowns: breakdowns(report.events()),
            names: report.names().clone(),
            draws: report.session.draws(),
        })
    }
}

/// What makes two breakdowns the same: machine, cause, time to the last bit, tick, state. Names do not count.
fn identity(event: &Event) -> (u8, u32, bool, u64, u128, &'static str) {
    (
        event.machine,
        event.cause,
        event.censored,
        event.time.to_bits(),
        event.ticks,
        event.fate.word(),
    )
}

/// The two lists side by side, place after place.
struct Places<'a>(&'a [Side; 2]);

impl Places<'_> {
    fn longest(&self) -> usize {
        let [left, right] = self.0.each_ref().map(|side| side.breakdowns.len());
        left.max(right)
    }

    /// The breakdowns at one place, where they have one.
    fn at(&self, place: usize) -> [Option<&Event>; 2] {
        self.0.each_ref().map(|side| side.breakdowns.get(place))
    }

    fn is_same(&self, place: usize) -> bool {
        let [left, right] = self.at(place).map(|event| event.map(identity));
        left == right
    }

    /// In how many places they differ.
    fn differences(&self) -> usize {
        let places = 0..self.longest();
        places.filter(|place| !self.is_same(*place)).count()
    }

    /// The two sides beside each other, or below each other where there is little room.
    fn write_table(&self, width: Option<usize>, out: &mut dyn Write) -> io::Result<()> {
        let columns = [
            &[Column::Right("no")],
            &LIST[..],
            &[Column::Left("")],
            &LIST,
        ]
        .concat();
        let rows = || (0..self.longest()).map(|place| self.beside(place));
        let mut wide = Table::new(&columns);
        rows().for_each(|row| wide.look_at(&row));
        if width.is_none_or(|width| wide.width() <= width) {
            wide.write_head(out)?;
            return rows().try_for_each(|row| wide.write_row(out, &row));
        }
        let columns = [&[Column::Right("no"), Column::Left("")], &LIST[..]].concat();
        let rows = || (0..self.longest()).flat_map(|place| self.below(place));
        write_aligned(&columns, rows, width, out)
    }

    /// The cells of both sides at a place.
    fn cells(&self, place: usize) -> [Option<[String; 5]>; 2] {
        let [left, right] = self.at(place);
        let cells =
            |event: Option<&Event>, side: &Side| event.map(|event| event_cells(event, &side.names));
        [cells(left, &self.0[0]), cells(right, &self.0[1])]
    }

    fn beside(&self, place: usize) -> Vec<String> {
        let [left, right] = self.cells(place).map(Option::unwrap_or_default);
        let sign = if self.is_same(place) { "=" } else { "<>" };
        let front = [(place + 1).to_string()].into_iter().chain(left);
        front.chain([sign.to_string()]).chain(right).collect()
    }

    /// One line where both are the same; otherwise `<` before the left one and `>` before the right one.
    fn below(&self, place: usize) -> Vec<Vec<String>> {
        let signs = if self.is_same(place) {
            &["="][..]
        } else {
            &["<", ">"]
        };
        let sides = signs.iter().zip(self.cells(place));
        let present = sides.filter_map(|(sign, cells)| Some((sign, cells?)));
        present
            .map(|(sign, cells)| {
                let front = [(place + 1).to_string(), sign.to_string()];
                front.into_iter().chain(cells).collect()
            })
            .collect()
    }

    fn verdict(&self, differences: usize) -> String {
        let [left, right] = self.0.each_ref().map(|side| side.draws);
        let draws = format!("Thresholds drawn: {left} left, {right} right.\n");
        let lists = if differences == 0 {
            let events = counted(self.longest(), "event");
            format!("The lists of breakdowns are the same: {events}, to the last bit.\n")
        } else {
            let places = counted(self.longest(), "place");
            format!("The lists of breakdowns differ in {differences} of {places}.\n")
        };
        draws + &lists
    }
}

const LIST: [Column; 5] = [
    Column::Name("machine"),
    Column::Name("cause"),
    Column::Right("at"),
    Column::Right("tick"),
    Column::Left("state"),
];
