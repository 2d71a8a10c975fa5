//! The lanes of the machines over the time axis.

use super::axis::{Axis, end_time, last_command_time};
use super::legend::{bar_height, legend};
use super::marks::{Palette, event_mark};
use super::spans::{Span, spans};
use super::xml::{escaped, line, rectangle, text};
use crate::cli::events::{Event, Fate};
use crate::cli::report::Report;
use crate::cli::wording::rounded;
use olgaemuri::text::{Names, columns, cut};
use std::collections::BTreeMap;

pub const WIDTH: f64 = 1200.0;
const RIGHT: f64 = 50.0;
const MARGIN: f64 = 24.0;
const TOP: f64 = 80.0;
const LANE: f64 = 58.0;

/// Room for the label of an event.
const LABEL: f64 = 36.0;

/// Letters of a machine's name that there is room for in any picture, and at most.
const LETTERS: usize = 17;
const MOST_LETTERS: usize = 36;

/// Room for a letter of a name.
const LETTER: f64 = 9.8;

pub struct Timeline<'a> {
    report: &'a Report,
    names: &'a Names,
    axis: Axis,
    palette: Palette,
    /// The time of the last command.
    last: f64,
    /// Where the names of the machines end.
    left: f64,
    /// The height of each machine's lane, at its middle.
    lanes: BTreeMap<u8, f64>,
    bottom: f64,
}

impl<'a> Timeline<'a> {
    pub fn new(report: &'a Report) -> Self {
        let clocks = &report.outcome().clocks;
        let last = last_command_time(report.outcome());
        let end = end_time(report.events(), last);
        let names = clocks
            .iter()
            .map(|clock| lane_name(clock.number, report.names()));
        let letters = names.map(|name| columns(&name)).max().unwrap_or(0);
        let left = 23.4 + LETTER * letters.max(LETTERS) as f64;
        let centres = (0..16).map(|lane| TOP + LANE * (f64::from(lane) + 0.5));
        Self {
            report,
            names: report.names(),
            axis: Axis {
                end,
                left,
                width: WIDTH - left - RIGHT,
            },
            palette: Palette::new(report.events()),
            last,
            left,
            lanes: clocks
                .iter()
                .map(|clock| clock.number)
                .zip(centres)
                .collect(),
            bottom: TOP + LANE * clocks.len() as f64,
        }
    }

    /// Everything below the title, part after part, and the height of it all.
    pub fn drawn(&self) -> (impl Iterator<Item = String>, f64) {
        let lanes = || {
            self.lanes
                .iter()
                .map(|(machine, centre)| (*machine, *centre))
        };
        let names = lanes().map(|(machine, centre)| self.lane(machine, centre));
        let grid = self
            .axis
            .marks()
            .into_iter()
            .map(|time| self.axis_mark(time));
        let spans = spans(self.report.outcome(), self.axis.end);
        let bars = spans.into_iter().map(|span| self.bar(&span));
        let marks = drawing_order(self.report.events()).map(|event| self.mark(event));
        let labels = lanes().map(|(machine, centre)| self.labels(machine, centre));
        let parts = names
            .chain(grid)
            .chain(bars)
            .chain([self.ahead()])
            .chain(marks)
            .chain(labels);
        let top = self.bottom + 64.0;
        let (legend, height) = legend(
            self.report.events(),
            &self.palette,
            self.names,
            (MARGIN, WIDTH - MARGIN),
            top,
        );
        (parts.chain([self.base(), legend]), height)
    }

    /// The background of a lane, its machine and what that machine's events came to.
    fn lane(&self, machine: u8, centre: f64) -> String {
        let clock = self.report.outcome().clock(machine);
        let events = clock.map(|clock| clock.events).unwrap_or_default();
        let counts = format!(
            "{} delivered, {} withdrawn",
            events.delivered, events.withdrawn
        );
        let back = rectangle(
            "lane",
            8.0,
            centre - LANE / 2.0 + 2.0,
            WIDTH - 16.0,
            LANE - 4.0,
        );
        let name = text(
            "name",
            self.left - 14.0,
            centre + 1.0,
            &lane_name(machine, self.names),
        );
        back + &name + &text("count", self.left - 14.0, centre + 16.0, &counts)
    }

    fn axis_mark(&self, time: f64) -> String {
        let (x, bottom) = (self.axis.x(time), self.bottom);
        let grid = line("grid", (x, TOP), (x, bottom));
        let notch = line("axis", (x, bottom), (x, bottom + 5.0));
        grid + &notch + &text("time", x, bottom + 20.0, &rounded(time))
    }

    fn base(&self) -> String {
        let bottom = self.bottom;
        let word = text(
            "time",
            self.left + self.axis.width / 2.0,
            bottom + 38.0,
            "time",
        );
        line("axis", (self.left, bottom), (WIDTH - RIGHT, bottom)) + &word
    }

    /// The time of the last command, and a veil over what lies after it and has not come yet.
    fn ahead(&self) -> String {
        let (x, right) = (self.axis.x(self.last), WIDTH - RIGHT);
        let veil = rectangle("ahead", x, TOP, right - x, self.bottom - TOP);
        let words = format!("last command, {}", rounded(self.last));
        let word = text("time", x.min(WIDTH - 80.0), TOP - 8.0, &words);
        veil + &line("last", (x, TOP - 4.0), (x, self.bottom)) + &word
    }

    fn bar(&self, span: &Span) -> String {
        let (from, to) = (self.axis.x(span.from), self.axis.x(span.to));
        let (height, centre) = (bar_height(span.condition), self.lanes[&span.machine] + 4.0);
        let class = span.condition.class();
        let bar = rectangle(class, from, centre - height / 2.0, to - from, height);
        let (machine, condition) = (self.names.machine(span.machine), span.condition.word());
        let (from, to) = (rounded(span.from), rounded(span.to));
        let title = escaped(&format!("{machine}: {condition} from {from} to {to}"));
        format!(
            "<g class=\"span\"><title>{title}</title>{}</g>\n",
            bar.trim_end()
        )
    }

    /// On the bar, or above it where the event was withdrawn; at the border with its time where it lies beyond.
    fn mark(&self, event: &Event) -> String {
        let (x, centre) = (self.axis.x(event.time), self.lanes[&event.machine]);
        let y = if event.fate == Fate::Withdrawn {
            centre - 14.0
        } else {
            centre + 4.0
        };
        let (cause, fate) = (event.cause, event.fate);
        let mut mark = match event.struck {
            Some(piece) => self.palette.numbered_mark(cause, fate, piece.number, x, y),
            None => self.palette.mark(cause, fate, x, y),
        };
        if self.axis.is_beyond(event.time) {
            let words = format!("{} \u{2192}", rounded(event.time));
            mark += text("beyond", x - 10.0, y + 4.0, &words).trim_end();
        }
        event_mark(event, self.names, &mark)
    }

    /// The times of a machine's delivered and scheduled events, below their marks, so far as there is room.
    fn labels(&self, machine: u8, centre: f64) -> String {
        let events = self
            .report
            .events()
            .iter()
            .filter(|event| event.machine == machine);
        let shown = events
            .filter(|event| event.fate != Fate::Withdrawn && !self.axis.is_beyond(event.time));
        let mut times: Vec<f64> = shown.map(|event| event.time).collect();
        times.sort_by(f64::total_cmp);
        let mut out = String::new();
        let mut free = f64::MIN;
        for time in times {
            let x = self.axis.x(time);
            if x >= free {
                out += &text("label", x, centre + 23.0, &short(time, self.axis.end));
                free = x + LABEL;
            }
        }
        out
    }
}

/// Withdrawn marks first, so that the others lie over them.
fn drawing_order(events: &[Event]) -> impl Iterator<Item = &Event> {
    let fate = |fate| events.iter().filter(move |event| event.fate == fate);
    fate(Fate::Withdrawn)
        .chain(fate(Fate::Pending))
        .chain(fate(Fate::Delivered))
}

/// A time to a tenth, or as it is where the whole axis is short.
fn short(time: f64, end: f64) -> String {
    rounded(if end >= 10.0 {
        (time * 10.0).round() / 10.0
    } else {
        time
    })
}

/// A name that fits beside its lane. One that is cut is followed by the machine's number, so that no two look alike.
fn lane_name(machine: u8, names: &Names) -> String {
    let name = names.machine(machine);
    if columns(&name) <= MOST_LETTERS {
        return name;
    }
    let number = format!(" ({machine})");
    cut(&name, MOST_LETTERS - number.len()) + &number
}
