//! The rate curves that a cause had, each with its pieces and the breakdowns that came by it.

use super::asked::Asked;
use crate::cli::events::{Event, Fate};
use crate::cli::report::Report;
use crate::cli::wording::{counted, rounded};
use olgaemuri::{Command, Hazard};
use std::collections::BTreeMap;

/// All curves of a cause of a machine, in the order in which they were first set.
pub struct Curves {
    pub machine: u8,
    pub machine_name: String,
    pub cause: u32,
    pub cause_name: String,
    pub list: Vec<Curve>,
}

/// One of them.
pub struct Curve {
    pub hazard: Hazard,
    /// When it was set.
    pub set_at: Vec<f64>,
    pub bands: Vec<Band>,
    /// The breakdowns by it, in the order in which they were scheduled.
    pub strikes: Vec<Strike>,
}

/// A piece of a curve. Hazards without pairs have one, piece 0.
#[derive(Clone, Copy, Debug, PartialEq)]
pub struct Band {
    pub number: u8,
    pub from: f64,
    /// None for the last one, which goes on.
    pub to: Option<f64>,
    /// None where it grows with the age.
    pub rate: Option<f64>,
}

/// A breakdown that was delivered or is scheduled.
#[derive(Clone, Copy, Debug, PartialEq)]
pub struct Strike {
    /// Its number among the cause's breakdowns, from 1.
    pub number: usize,
    /// How old the curve was, counted from the command that scheduled it.
    pub age: f64,
    pub piece: u8,
    pub event: Event,
}

/// The curves that the commands in force have given to a cause. Withdrawn breakdowns are left out.
pub fn curves(report: &Report, asked: &Asked) -> Curves {
    let (mut walk, mut number) = (Walk::default(), 0);
    let mut events = report.events().iter();
    for applied in report.outcome().applied() {
        match applied.command {
            Command::Set {
                clock,
                cause,
                hazard,
                now,
                ..
            } if (*clock, *cause) == (asked.machine, asked.cause) => walk.set(hazard, *now),
            Command::Reschedule { .. } | Command::Resume { .. } if applied.answer.event => {
                let event = events.next().filter(|event| is_strike(event, asked));
                if let Some(event) = event {
                    number += 1;
                    walk.list[walk.current].strikes.push(Strike {
                        number,
                        age: applied.answer.delta,
                        piece: applied.answer.piece,
                        event: *event,
                    });
                }
            }
            _ => {}
        }
    }
    let names = report.names();
    Curves {
        machine: asked.machine,
        machine_name: names.machine(asked.machine),
        cause: asked.cause,
        cause_name: names.cause(asked.cause),
        list: walk.list,
    }
}

/// The curves so far, the place of each by its hazard, and the one that holds.
#[derive(Default)]
struct Walk {
    list: Vec<Curve>,
    places: BTreeMap<String, usize>,
    current: usize,
}

impl Walk {
    /// The cause is given a hazard, which may be one that it had before.
    fn set(&mut self, hazard: &Hazard, now: f64) {
        let next = self.list.len();
        self.current = *self.places.entry(hazard.to_string()).or_insert(next);
        if self.current == next {
            self.list.push(Curve::of(hazard));
        }
        self.list[self.current].set_at.push(now);
    }
}

fn is_strike(event: &Event, asked: &Asked) -> bool {
    (event.machine, event.cause) == (asked.machine, asked.cause) && event.fate != Fate::Withdrawn
}

/// The pieces of a hazard, or all of it as piece 0.
fn bands(hazard: &Hazard) -> Vec<Band> {
    let above_zero = |rate: f64| if rate > 0.0 { rate } else { 0.0 };
    let rate = match hazard {
        Hazard::PiecewiseConstant { .. } => {
            let bands = hazard.pieces().map(|piece| Band {
                number: piece.number,
                from: piece.from,
                to: piece.to,
                rate: Some(piece.rate),
            });
            return bands.collect();
        }
        Hazard::Constant(rate) | Hazard::Gompertz(rate) => Some(above_zero(*rate)),
        Hazard::Weibull(scale) if *scale > 0.0 => None,
        _ => Some(0.0),
    };
    vec![Band {
        number: 0,
        from: 0.0,
        to: None,
        rate,
    }]
}

impl Curves {
    pub fn title(&self) -> String {
        format!("{}: {}", self.machine_name, self.cause_name)
    }

    /// Whether a breakdown came at once.
    pub fn has_at_once(&self) -> bool {
        self.list.iter().any(|curve| curve.at_once() > 0)
    }

    /// How many breakdowns there are.
    pub fn summary(&self) -> String {
        let strikes = || self.list.iter().flat_map(|curve| &curve.strikes);
        let delivered = strikes()
            .filter(|strike| strike.event.fate == Fate::Delivered)
            .count();
        let all = strikes().count();
        let breakdowns = counted(all, "breakdown");
        format!(
            "{breakdowns}: {delivered} delivered, {} scheduled",
            all - delivered
        )
    }
}

impl Strike {
    /// Whether it is at age 0 with piece 0 in the engine's answer: nothing was left of the threshold, or the wait rounds to 0. The
    /// answer tells no more. It counts for no piece, since a reader would take it for one that fell in the first.
    pub fn is_at_once(&self) -> bool {
        self.age == 0.0 && self.piece == 0
    }
}

impl Curve {
    /// The curve of a hazard that has not been set yet.
    fn of(hazard: &Hazard) -> Self {
        Self {
            hazard: hazard.clone(),
            set_at: Vec::new(),
            bands: bands(hazard),
            strikes: Vec::new(),
        }
    }

    /// How many breakdowns a piece has that came to this. Those at once are none of them.
    pub fn count(&self, band: &Band, fate: Fate) -> usize {
        let strikes = self.strikes.iter().filter(|strike| !strike.is_at_once());
        let strikes = strikes.filter(|strike| strike.piece == band.number);
        strikes.filter(|strike| strike.event.fate == fate).count()
    }

    /// How many breakdowns a piece has.
    pub fn struck(&self, band: &Band) -> usize {
        self.count(band, Fate::Delivered) + self.count(band, Fate::Pending)
    }

    /// How many breakdowns came at once and to this.
    pub fn count_at_once(&self, fate: Fate) -> usize {
        let strikes = self.strikes.iter().filter(|strike| strike.is_at_once());
        strikes.filter(|strike| strike.event.fate == fate).count()
    }

    /// How many breakdowns came at once.
    pub fn at_once(&self) -> usize {
        self.count_at_once(Fate::Delivered) + self.count_at_once(Fate::Pending)
    }

    /// The rate at an age of a piece.
    pub fn rate(&self, band: &Band, age: f64) -> f64 {
        let scale = self.hazard.first();
        band.rate.unwrap_or_else(|| (2.0 / scale) * (age / scale))
    }

    /// When it was set, in words.
    pub fn set_words(&self) -> String {
        match self.set_at.as_slice() {
            [once] => format!("set at {}", rounded(*once)),
            [first, .., last] => format!(
                "set {} times, from {} to {}",
                self.set_at.len(),
                rounded(*first),
                rounded(*last)
            ),
            [] => String::new(),
        }
    }
}

#[cfg(test)]
mod tests {
    use super::*;
    use olgaemuri::Pair;

    fn rates(hazard: &Hazard) -> Vec<(u8, f64, Option<f64>, Option<f64>)> {
        let bands = bands(hazard).into_iter();
        bands
            .map(|band| (band.number, band.from, band.to, band.rate))
            .collect()
    }

    #[test]
    fn pieces_go_on_from_each_other() {
        let pair = |end, rate| Pair { end, rate };
        let hazard = Hazard::PiecewiseConstant {
            pairs: vec![pair(2.0, 1.0), pair(5.0, -1.0)],
            trailing: 0.5,
        };
        let expected = [
            (0, 0.0, Some(2.0), Some(1.0)),
            (1, 2.0, Some(5.0), Some(0.0)),
            (2, 5.0, None, Some(0.5)),
        ];
        assert_eq!(rates(&hazard), expected);
    }

    #[test]
    fn other_hazards_are_piece_0() {
        let one = |rate| vec![(0, 0.0, None, rate)];
        for (hazard, rate) in [
            (Hazard::Zero, Some(0.0)),
            (Hazard::Constant(0.5), Some(0.5)),
            (Hazard::Constant(-0.5), Some(0.0)),
            (Hazard::Gompertz(0.25), Some(0.25)),
            (Hazard::Weibull(400.0), None),
            (Hazard::Weibull(-400.0), Some(0.0)),
        ] {
            assert_eq!(rates(&hazard), one(rate), "{hazard}");
        }
    }
}
