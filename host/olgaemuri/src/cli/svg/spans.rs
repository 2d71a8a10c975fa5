//! When each machine ran, was paused or stood still after a breakdown, by the applied commands.

use olgaemuri::{Applied, CLOCKS, Command, Outcome};

#[derive(Clone, Copy, Debug, PartialEq)]
pub enum Condition {
    Running,
    Paused,
    Down,
}

impl Condition {
    pub const ALL: [Self; 3] = [Self::Running, Self::Paused, Self::Down];

    pub fn word(self) -> &'static str {
        match self {
            Self::Running => "running",
            Self::Paused => "paused",
            Self::Down => "broken down",
        }
    }

    /// The name of its class in the picture.
    pub fn class(self) -> &'static str {
        match self {
            Self::Running => "running",
            Self::Paused => "paused",
            Self::Down => "down",
        }
    }
}

#[derive(Clone, Copy, Debug, PartialEq)]
pub struct Span {
    pub machine: u8,
    pub condition: Condition,
    pub from: f64,
    pub to: f64,
}

/// Where a machine is in the walk.
#[derive(Clone, Copy, Default)]
struct Place {
    condition: Option<(Condition, f64)>,
    /// Its pending event's time, and whether it is censored.
    due: Option<(f64, bool)>,
}

/// The spans up to the end of the picture. A machine that runs does so until its scheduled event.
pub fn spans(outcome: &Outcome, end: f64) -> Vec<Span> {
    let mut places = [Place::default(); CLOCKS];
    let mut spans = Vec::new();
    for applied in outcome.applied() {
        let place = &mut places[usize::from(applied.clock)];
        spans.extend(place.enter(&applied));
    }
    let last = (0..).zip(&mut places).filter_map(|(machine, place)| {
        let due = place.due.filter(|_| place.is(Condition::Running));
        place.turn(machine, None, due.map_or(end, |due| due.0))
    });
    spans.extend(last);
    spans.retain(|span| span.from < span.to);
    spans
}

impl Place {
    fn is(&self, condition: Condition) -> bool {
        self.condition.is_some_and(|now| now.0 == condition)
    }

    /// Follows an applied command; the span that it ends, if any.
    fn enter(&mut self, applied: &Applied) -> Option<Span> {
        let (machine, answer) = (applied.clock, &applied.answer);
        if answer.withdrawn {
            self.due = None;
        }
        match *applied.command {
            Command::Reschedule { now, .. } | Command::Resume { now, .. } if answer.event => {
                self.due = Some((now + answer.delta, answer.censored));
                if self.is(Condition::Running) {
                    return None;
                }
                self.turn(machine, Some(Condition::Running), now)
            }
            Command::Pause { now, .. } if self.is(Condition::Running) => {
                self.turn(machine, Some(Condition::Paused), now)
            }
            Command::Deliver => {
                let (time, censored) = self.due.take()?;
                self.turn(machine, (!censored).then_some(Condition::Down), time)
            }
            _ => None,
        }
    }

    /// Goes over to another condition, or to none; the span that ends then.
    fn turn(&mut self, machine: u8, next: Option<Condition>, time: f64) -> Option<Span> {
        let before = self.condition.take();
        self.condition = next.map(|condition| (condition, time));
        before.map(|(condition, from)| Span {
            machine,
            condition,
            from,
            to: time,
        })
    }
}

#[cfg(test)]
mod tests {
    use super::*;
    use olgaemuri::Session;

    /// The spans of machine 0, as condition, from, to.
    fn found(commands: &str) -> Vec<(&'static str, f64, f64)> {
        let head = "thresholds 2 1\ncreate machine=0 policy=retain\nset machine=0 cause=1 now=0 hazard=constant rate=0.5\n";
        let text = format!("{head}{commands}");
        let session: Session = text.parse().unwrap();
        let spans = spans(session.run(), 10.0);
        spans
            .iter()
            .map(|span| (span.condition.class(), span.from, span.to))
            .collect()
    }

    #[test]
    fn a_machine_runs_until_its_event() {
        assert_eq!(
            found("reschedule machine=0 now=0\n"),
            [("running", 0.0, 4.0)]
        );
        assert_eq!(found(""), []);
    }

    #[test]
    fn pauses_and_breakdowns() {
        let paused = "reschedule machine=0 now=0\npause machine=0 now=1\nresume machine=0 now=3\n";
        let running = [
            ("running", 0.0, 1.0),
            ("paused", 1.0, 3.0),
            ("running", 3.0, 6.0),
        ];
        assert_eq!(found(paused), running);
        let down = [running.as_slice(), &[("down", 6.0, 10.0)]].concat();
        assert_eq!(found(&format!("{paused}deliver\n")), down);
        assert_eq!(
            found(&format!("{paused}deliver\npause machine=0 now=7\n")),
            down
        );
        assert_eq!(
            found(&format!("{paused}undo\n")),
            [("running", 0.0, 1.0), ("paused", 1.0, 10.0)]
        );
    }

    #[test]
    fn times_that_go_back_leave_no_span() {
        let back = "reschedule machine=0 now=3\npause machine=0 now=1\n";
        assert_eq!(found(back), [("paused", 1.0, 10.0)]);
    }

    #[test]
    fn the_end_of_observation_is_no_breakdown() {
        assert_eq!(
            found("reschedule machine=0 now=0 censor=3\ndeliver\n"),
            [("running", 0.0, 3.0)]
        );
    }
}
