//! Marks of events: a colour and a shape for each cause, so that either tells them apart; filled when delivered, hollow when
//! scheduled, small and crossed out when withdrawn; with the number of the piece in which a breakdown falls, where its cause's hazard
//! has pieces. The end of observation is a bar.

use super::xml::{escaped, place, text};
use crate::cli::csv::piece_cell;
use crate::cli::events::{Event, Fate};
use crate::cli::wording::{piece_words, rounded};
use olgaemuri::NO_CAUSE;
use olgaemuri::text::{Names, float_text};

/// Okabe and Ito's colours, which the colour-blind can tell apart.
const COLOURS: [&str; 8] = [
    "#0072b2", "#d55e00", "#009e73", "#cc79a7", "#e69f00", "#56b4e9", "#8a7a00", "#000000",
];

/// The end of observation.
const GREY: &str = "#555555";

/// Corners in units of the radius; the first shape is a circle.
const SHAPES: [&[(f64, f64)]; 7] = [
    &[(-0.9, -0.9), (0.9, -0.9), (0.9, 0.9), (-0.9, 0.9)],
    &[(0.0, -1.25), (1.1, 0.75), (-1.1, 0.75)],
    &[(0.0, -1.3), (1.3, 0.0), (0.0, 1.3), (-1.3, 0.0)],
    &[(0.0, 1.25), (1.1, -0.75), (-1.1, -0.75)],
    &[
        (0.0, -1.2),
        (1.15, -0.35),
        (0.7, 1.0),
        (-0.7, 1.0),
        (-1.15, -0.35),
    ],
    &[
        (-0.6, -1.1),
        (0.6, -1.1),
        (1.2, 0.0),
        (0.6, 1.1),
        (-0.6, 1.1),
        (-1.2, 0.0),
    ],
    &[(-1.2, -0.5), (1.2, -0.5), (1.2, 0.5), (-1.2, 0.5)],
];

/// The causes of a picture, each with its colour and shape.
pub struct Palette(Vec<u32>);

impl Palette {
    pub fn new(events: &[Event]) -> Self {
        let mut causes: Vec<u32> = events
            .iter()
            .map(|event| event.cause)
            .filter(|cause| *cause != NO_CAUSE)
            .collect();
        causes.sort_unstable();
        causes.dedup();
        Self(causes)
    }

    pub fn causes(&self) -> &[u32] {
        &self.0
    }

    fn rank(&self, cause: u32) -> usize {
        self.0.binary_search(&cause).unwrap_or(0)
    }

    fn colour(&self, cause: u32) -> &'static str {
        if cause == NO_CAUSE {
            GREY
        } else {
            COLOURS[self.rank(cause) % COLOURS.len()]
        }
    }

    /// The place of a cause's shape; causes that share a colour, the ninth and the first, have different shapes.
    fn shape(&self, cause: u32) -> usize {
        let rank = self.rank(cause);
        (rank + rank / COLOURS.len()) % (SHAPES.len() + 1)
    }

    /// The outline of a mark.
    fn outline(&self, cause: u32, x: f64, y: f64, radius: f64) -> String {
        let bar: &[(f64, f64)] = &[(-0.35, -1.35), (0.35, -1.35), (0.35, 1.35), (-0.35, 1.35)];
        let corners = match self.shape(cause) {
            _ if cause == NO_CAUSE => bar,
            0 => return circle(x, y, radius),
            shape => SHAPES[shape - 1],
        };
        let corner = |(dx, dy): &(f64, f64)| {
            format!("{},{}", place(x + dx * radius), place(y + dy * radius))
        };
        let corners: Vec<String> = corners.iter().map(corner).collect();
        format!("<polygon points=\"{}\"/>", corners.join(" "))
    }

    /// The mark of an event.
    pub fn mark(&self, cause: u32, fate: Fate, x: f64, y: f64) -> String {
        painted(
            &self.outline(cause, x, y, radius(fate)),
            self.colour(cause),
            fate,
            x,
            y,
        )
    }

    /// The mark of an event with the number of its piece; a withdrawn one is too small for it.
    pub fn numbered_mark(&self, cause: u32, fate: Fate, number: u8, x: f64, y: f64) -> String {
        if fate == Fate::Withdrawn {
            return self.mark(cause, fate, x, y);
        }
        // where a triangle has the most room
        let shift = match self.shape(cause) {
            2 => 1.5,
            4 => -1.5,
            _ => 0.0,
        };
        let outline = self.outline(cause, x, y, NUMBERED);
        painted(&outline, self.colour(cause), fate, x, y) + &digit(number, fate, x, y + shift)
    }

    /// A mark for the legend that has a number and no cause.
    pub fn neutral_numbered_mark(number: u8, x: f64, y: f64) -> String {
        let fate = Fate::Delivered;
        painted(&circle(x, y, NUMBERED), GREY, fate, x, y) + &digit(number, fate, x, y)
    }

    /// A mark for the legend that has no cause.
    pub fn neutral_mark(fate: Fate, x: f64, y: f64) -> String {
        painted(&circle(x, y, radius(fate)), GREY, fate, x, y)
    }
}

/// The radius of a mark with a number.
const NUMBERED: f64 = 8.5;

/// The number of a piece in the middle of a mark.
fn digit(number: u8, fate: Fate, x: f64, y: f64) -> String {
    let class = if fate == Fate::Delivered {
        "piece"
    } else {
        "piece-due"
    };
    let digit = text(class, x, y + 3.6, &number.to_string());
    digit.trim_end().to_string()
}

fn radius(fate: Fate) -> f64 {
    if fate == Fate::Withdrawn { 4.5 } else { 7.0 }
}

fn circle(x: f64, y: f64, radius: f64) -> String {
    let [x, y, radius] = [x, y, 1.05 * radius].map(place);
    format!("<circle cx=\"{x}\" cy=\"{y}\" r=\"{radius}\"/>")
}

/// An outline with the colours of its fate, a stroke through it where it is withdrawn.
fn painted(outline: &str, colour: &str, fate: Fate, x: f64, y: f64) -> String {
    match fate {
        Fate::Delivered => {
            format!("<g fill=\"{colour}\" stroke=\"#ffffff\" stroke-width=\"1\">{outline}</g>")
        }
        Fate::Pending => {
            format!("<g fill=\"#ffffff\" stroke=\"{colour}\" stroke-width=\"2.4\">{outline}</g>")
        }
        Fate::Withdrawn => {
            let [x1, y1, x2, y2] = [x - 7.0, y + 7.0, x + 7.0, y - 7.0].map(place);
            format!(
                "<g fill=\"none\" stroke=\"{colour}\" stroke-width=\"1.4\">{outline}\
                 <line x1=\"{x1}\" y1=\"{y1}\" x2=\"{x2}\" y2=\"{y2}\"/></g>"
            )
        }
    }
}

/// What a mark says when it is pointed at.
fn title(event: &Event, names: &Names) -> String {
    let what = if event.censored {
        "end of observation (censored)".to_string()
    } else {
        names.cause(event.cause)
    };
    let (time, scheduled) = (rounded(event.time), rounded(event.scheduled_at));
    let (machine, state) = (names.machine(event.machine), event.fate.word());
    let priority = match event.priority {
        0 => String::new(),
        priority => format!(", priority {priority}"),
    };
    // a breakdown at once, with nothing left of its threshold, is told without the piece 0 of its answer
    let struck = event
        .struck
        .filter(|piece| piece.number > 0 || event.time > event.scheduled_at)
        .map(|piece| format!(", {}", piece_words(&piece)));
    format!(
        "{machine}: {what} at {time}, tick {}{priority}{}; {state}, as scheduled at {scheduled}",
        event.ticks,
        struck.unwrap_or_default()
    )
}

/// An event with its title, and with its values for programs that read the picture.
pub fn event_mark(event: &Event, names: &Names, mark: &str) -> String {
    format!(
        "<g class=\"event\" data-machine=\"{}\" data-cause=\"{}\" data-censored=\"{}\" data-time=\"{}\" data-ticks=\"{}\" \
         data-state=\"{}\" data-priority=\"{}\" data-piece=\"{}\"><title>{}</title>{mark}</g>\n",
        event.machine,
        event.cause,
        event.censored,
        float_text(event.time),
        event.ticks,
        event.fate.word(),
        event.priority,
        piece_cell(event.piece()),
        escaped(&title(event, names)),
    )
}
