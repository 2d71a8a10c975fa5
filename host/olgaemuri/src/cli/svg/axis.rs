//! From times to places in the picture.

use crate::cli::events::{Event, Fate};
use olgaemuri::Outcome;

/// The time axis, from 0 to the end.
#[derive(Clone, Copy, Debug)]
pub struct Axis {
    pub end: f64,
    pub left: f64,
    pub width: f64,
}

/// The last time that an applied command names.
pub fn last_command_time(outcome: &Outcome) -> f64 {
    let times = outcome
        .applied()
        .filter_map(|applied| applied.command.now());
    times.fold(0.0, f64::max)
}

/// The end of the picture: the last command or delivery, and the later events up to twice that time. Events further out would
/// press everything else together; they are drawn at the border.
pub fn end_time(events: &[Event], last_command: f64) -> f64 {
    let delivered = events.iter().filter(|event| event.fate == Fate::Delivered);
    let base = delivered
        .map(|event| event.time)
        .fold(last_command, f64::max);
    let limit = if base > 0.0 { 2.0 * base } else { f64::MAX };
    let near = events
        .iter()
        .map(|event| event.time)
        .filter(|time| *time <= limit);
    let end = near.fold(base, f64::max);
    if end > 0.0 { end } else { 1.0 }
}

impl Axis {
    pub fn x(&self, time: f64) -> f64 {
        self.left + self.width * (time.clamp(0.0, self.end) / self.end)
    }

    pub fn is_beyond(&self, time: f64) -> bool {
        time > self.end
    }

    /// Round times along the axis, some ten of them.
    pub fn marks(&self) -> Vec<f64> {
        let step = round_step(self.end / 10.0);
        let count = if step > 0.0 {
            (self.end / step).floor().min(10.0)
        } else {
            0.0
        };
        (0..=count as u32)
            .map(|place| f64::from(place) * step)
            .collect()
    }
}

/// The least of 1, 2, 5 times a power of ten that is at least this long.
fn round_step(least: f64) -> f64 {
    let power = 10f64.powf(least.log10().floor());
    let steps = [1.0, 2.0, 5.0].map(|digit| digit * power);
    steps
        .into_iter()
        .find(|step| *step >= least)
        .unwrap_or(10.0 * power)
}

#[cfg(test)]
mod tests {
    use super::*;

    #[test]
    fn marks_are_round() {
        let axis = Axis {
            end: 480.0,
            left: 0.0,
            width: 480.0,
        };
        assert_eq!(
            axis.marks(),
            [
                0.0, 50.0, 100.0, 150.0, 200.0, 250.0, 300.0, 350.0, 400.0, 450.0
            ]
        );
    }

    fn event(time: f64, fate: Fate) -> Event {
        Event {
            machine: 0,
            cause: 1,
            censored: false,
            scheduled_at: 0.0,
            time,
            ticks: 0,
            fate,
            priority: 0,
            place: None,
            struck: None,
        }
    }

    #[test]
    fn far_events_do_not_stretch_the_axis() {
        let scheduled = |time| event(time, Fate::Pending);
        assert_eq!(end_time(&[scheduled(19.0), scheduled(21.0)], 10.0), 19.0);
        assert_eq!(
            end_time(&[event(30.0, Fate::Delivered), scheduled(21.0)], 10.0),
            30.0
        );
        assert_eq!(end_time(&[scheduled(21.0)], 0.0), 21.0);
        assert_eq!(end_time(&[], 0.0), 1.0);
    }

    #[test]
    fn steps() {
        assert_eq!(
            [0.7, 1.0, 3.0, 70.0].map(round_step),
            [1.0, 1.0, 5.0, 100.0]
        );
    }

    #[test]
    fn there_are_never_many_marks() {
        for end in [5e-324, 1e-300, 0.3, 1.0, 7e11, 1e300, f64::MAX] {
            let axis = Axis {
                end,
                left: 0.0,
                width: 1.0,
            };
            assert!((1..=11).contains(&axis.marks().len()), "{end}");
        }
    }
}
