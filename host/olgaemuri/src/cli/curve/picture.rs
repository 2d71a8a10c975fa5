//! The curves drawn: rate over age, each piece with its number, and the breakdowns in the pieces in which they fall.

use super::axes::{Axes, Frame};
use super::curves::{Band, Curve, Curves, Strike};
use super::shown::{AGES, AT_ONCE, rate_words};
use crate::cli::events::Fate;
use crate::cli::svg::marks::Palette;
use crate::cli::svg::xml::{escaped, line, place, rectangle, text};
use crate::cli::wording::{counted, hazard_words, rounded};
use olgaemuri::text::{cut, float_text};
use std::io::{self, Write};

const WIDTH: f64 = 1200.0;
const LEFT: f64 = 100.0;
const RIGHT: f64 = 50.0;
const TOP: f64 = 66.0;

/// A curve with its heading, the heads of its pieces and its axis; and the heads alone.
const PANEL: f64 = 392.0;
const HEADS: f64 = 92.0;
const PLOT: f64 = 232.0;

const LEGEND: f64 = 92.0;

/// Letters that there is room for in a line over the whole width.
const LETTERS: usize = 160;

/// Room for the age of a breakdown beside that of the next one.
const LABEL: f64 = 44.0;

const STYLE: &str = include_str!("style.css");

pub fn write_picture(curves: &Curves, title: &str, out: &mut dyn Write) -> io::Result<()> {
    let legend = TOP + PANEL * curves.list.len() as f64;
    let [width, height] = [WIDTH, legend + LEGEND].map(place);
    let (title, summary) = (escaped(title), escaped(&curves.summary()));
    write!(
        out,
        "<svg xmlns=\"http://www.w3.org/2000/svg\" width=\"{width}\" height=\"{height}\" \
         viewBox=\"0 0 {width} {height}\" role=\"img\">\n\
         <title>{title}</title>\n<style>\n{STYLE}</style>\n\
         <rect width=\"{width}\" height=\"{height}\" fill=\"#fdfdfb\"/>\n\
         <text class=\"title\" x=\"24\" y=\"30\">{title}</text>\n\
         <text class=\"sub\" x=\"24\" y=\"49\">{summary}</text>\n"
    )?;
    for (curve, number) in curves.list.iter().zip(0..) {
        let panel = Panel::new(curves, number, curve);
        panel.write(out)?;
    }
    let is_to_scale = |(curve, number)| Panel::new(curves, number, curve).axes.is_to_scale;
    let to_scale = curves.list.iter().zip(0..).all(is_to_scale);
    writeln!(out, "{}</svg>", legend_lines(curves, legend, to_scale))
}

/// A curve in its part of the picture.
struct Panel<'a> {
    curve: &'a Curve,
    palette: Palette,
    axes: Axes,
    heading: String,
    top: f64,
}

impl<'a> Panel<'a> {
    fn new(curves: &Curves, number: usize, curve: &'a Curve) -> Self {
        let top = TOP + PANEL * number as f64;
        let frame = Frame {
            left: LEFT,
            width: WIDTH - LEFT - RIGHT,
            top: top + HEADS,
            height: PLOT,
        };
        let which = match curves.list.len() {
            1 => String::new(),
            all => format!("curve {} of {all}: ", number + 1),
        };
        let (hazard, set) = (hazard_words(&curve.hazard), curve.set_words());
        let events: Vec<_> = curve.strikes.iter().map(|strike| strike.event).collect();
        Self {
            curve,
            palette: Palette::new(&events),
            axes: Axes::new(curve, frame),
            heading: cut(&format!("{which}{hazard}; {set}"), LETTERS),
            top,
        }
    }

    fn bottom(&self) -> f64 {
        self.top + HEADS + PLOT
    }

    fn write(&self, out: &mut dyn Write) -> io::Result<()> {
        let heading = text("heading", 24.0, self.top + 16.0, &self.heading);
        let backs = self.curve.bands.iter().map(|band| self.back(band));
        let heads = self.curve.bands.iter().map(|band| self.head(band));
        let rates = self.axes.rate_marks().into_iter();
        let rates = rates.map(|rate| self.rate_mark(rate));
        let lines = self.curve.bands.iter().map(|band| self.rate_line(band));
        let strikes = self.curve.strikes.iter().map(|strike| self.strike(strike));
        let mut parts = std::iter::once(heading)
            .chain(backs)
            .chain(heads)
            .chain(rates)
            .chain([self.age_axis(), self.at_once()])
            .chain(lines)
            .chain(strikes)
            .chain([self.labels()]);
        parts.try_for_each(|part| out.write_all(part.as_bytes()))
    }

    /// The background of a piece, from its head to the axis.
    fn back(&self, band: &Band) -> String {
        let (left, right) = self.axes.borders(band);
        let class = match (self.curve.struck(band), band.number % 2) {
            (0, 0) => "even",
            (0, _) => "odd",
            _ => "struck",
        };
        let top = self.top + 30.0;
        rectangle(class, left, top, right - left, self.bottom() - top)
    }

    /// The number and the rate of a piece, how many breakdowns fall in it, and its end.
    fn head(&self, band: &Band) -> String {
        let (left, right) = self.axes.borders(band);
        let (centre, bottom) = ((left + right) / 2.0, self.bottom());
        let (ring, digit, words) = match self.curve.struck(band) {
            0 => ("ring", "number", "no breakdown".to_string()),
            struck => ("ring-struck", "number-struck", counted(struck, "breakdown")),
        };
        let [x, y] = [centre, self.top + 44.0].map(place);
        let end = band.to.map_or(String::new(), |end| {
            let border = line("border", (right, self.top + 30.0), (right, bottom));
            border + &text("time", right, bottom + 20.0, &rounded(end))
        });
        [
            format!("<circle class=\"{ring}\" cx=\"{x}\" cy=\"{y}\" r=\"11\"/>\n"),
            text(digit, centre, self.top + 49.0, &band.number.to_string()),
            text(
                "rate",
                centre,
                self.top + 70.0,
                &rate_words(self.curve, band),
            ),
            text("count", centre, self.top + 85.0, &words),
            end,
        ]
        .concat()
    }

    /// How many breakdowns came at once, beside the pieces, none of which counts them.
    fn at_once(&self) -> String {
        let words = counted(self.curve.at_once(), "breakdown");
        match self.curve.at_once() {
            0 => String::new(),
            _ => {
                text("rate", LEFT / 2.0, self.top + 44.0, "at once")
                    + &text("count", LEFT / 2.0, self.top + 59.0, &words)
            }
        }
    }

    fn rate_mark(&self, rate: f64) -> String {
        let y = self.axes.y(rate);
        let grid = line("grid", (LEFT, y), (WIDTH - RIGHT, y));
        grid + &text("amount", LEFT - 8.0, y + 4.0, &rounded(rate))
    }

    fn age_axis(&self) -> String {
        let (bottom, right) = (self.bottom(), WIDTH - RIGHT);
        let axes = [
            line("axis", (LEFT, bottom), (right, bottom)),
            line("axis", (LEFT, self.top + HEADS), (LEFT, bottom)),
            text("time", LEFT, bottom + 20.0, "0"),
            text("time", LEFT + (right - LEFT) / 2.0, bottom + 38.0, "age"),
            text("amount", LEFT - 8.0, self.top + HEADS - 16.0, "rate"),
            text("on", right, bottom + 20.0, "on \u{2192}"),
        ];
        axes.concat()
    }

    /// The curve over a piece, and the step to the next one.
    fn rate_line(&self, band: &Band) -> String {
        let ((left, right), (from, to)) = (self.axes.borders(band), self.axes.ages(band));
        let [begin, end] = [from, to].map(|age| self.axes.y(self.curve.rate(band, age)));
        let curve = line("curve", (left, begin), (right, end));
        let next = self.curve.bands.get(usize::from(band.number) + 1);
        match next {
            Some(next) => {
                let y = self.axes.y(self.curve.rate(next, to));
                curve + &line("step", (right, end), (right, y))
            }
            None => curve + &arrow(right, end),
        }
    }

    /// Where a breakdown stands: on the curve, or at age 0 of the axis where it came at once.
    fn place(&self, strike: &Strike) -> (f64, f64) {
        if strike.is_at_once() {
            return (LEFT, self.bottom());
        }
        let piece = usize::from(strike.piece).min(self.curve.bands.len() - 1);
        let rate = self.curve.rate(&self.curve.bands[piece], strike.age);
        (self.axes.x(strike.piece, strike.age), self.axes.y(rate))
    }

    fn strike(&self, strike: &Strike) -> String {
        let ((x, y), event) = (self.place(strike), &strike.event);
        let mark = self.palette.mark(event.cause, event.fate, x, y);
        let (class, drop) = match strike.is_at_once() {
            true => ("at-once", String::new()),
            false => ("strike", line("drop", (x, y), (x, self.bottom()))),
        };
        format!(
            "<g class=\"{class}\" data-piece=\"{}\" data-age=\"{}\" data-state=\"{}\"><title>{}</title>{}{mark}</g>\n",
            strike.piece,
            float_text(strike.age),
            event.fate.word(),
            escaped(&strike_words(strike)),
            drop.trim_end()
        )
    }

    /// The ages of the breakdowns, above their marks, so far as there is room.
    fn labels(&self) -> String {
        let strikes = self.curve.strikes.iter();
        let strikes = strikes.filter(|strike| !strike.is_at_once());
        let mut places: Vec<_> = strikes
            .map(|strike| (self.place(strike), strike.age))
            .collect();
        places.sort_by(|one, other| one.0.0.total_cmp(&other.0.0));
        let (mut out, mut free) = (String::new(), f64::MIN);
        for ((x, y), age) in places {
            if x >= free {
                out += &text("label", x, y - 13.0, &rounded(age));
                free = x + LABEL;
            }
        }
        out
    }
}

/// What a mark says when it is pointed at.
fn strike_words(strike: &Strike) -> String {
    let (number, age, event) = (strike.number, rounded(strike.age), &strike.event);
    let piece = match strike.is_at_once() {
        true => "at once".to_string(),
        false => format!("piece {}", strike.piece),
    };
    let comes = match event.fate {
        Fate::Pending => "due",
        fate => fate.word(),
    };
    let [time, scheduled] = [event.time, event.scheduled_at].map(rounded);
    let tick = event.ticks;
    format!(
        "breakdown {number}: age {age}, {piece}; {comes} at {time}, tick {tick}, scheduled at {scheduled}"
    )
}

/// The head of an arrow at the border: the last piece goes on.
fn arrow(x: f64, y: f64) -> String {
    let corner = |(dx, dy): (f64, f64)| format!("{},{}", place(x + dx), place(y + dy));
    let corners = [(0.0, -5.0), (10.0, 0.0), (0.0, 5.0)].map(corner);
    format!(
        "<polygon class=\"arrow\" points=\"{}\"/>\n",
        corners.join(" ")
    )
}

/// What the marks mean, and what an age is.
fn legend_lines(curves: &Curves, top: f64, is_to_scale: bool) -> String {
    let y = top + 12.0;
    let mark = |fate, x| Palette::new(&[]).mark(curves.cause, fate, x, y - 4.5) + "\n";
    let scale = "Ages are to scale within a piece, not from one piece to the next.";
    let notes = [
        Some(AGES),
        curves.has_at_once().then_some(AT_ONCE),
        (!is_to_scale).then_some(scale),
    ];
    let notes = notes.into_iter().flatten().zip(0..);
    let note = |(words, line)| text("sub", 24.0, y + 26.0 + 18.0 * f64::from(line), words);
    [
        mark(Fate::Delivered, 36.0),
        text("legend", 56.0, y, "breakdown delivered"),
        mark(Fate::Pending, 236.0),
        text("legend", 256.0, y, "breakdown scheduled"),
        rectangle("struck", 436.0, y - 12.0, 24.0, 15.0),
        text("legend", 470.0, y, "piece in which breakdowns fall"),
        notes.map(note).collect(),
    ]
    .concat()
}
