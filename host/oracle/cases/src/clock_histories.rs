//! Random histories of a single clock, and the stream of thresholds that all histories share.

use crate::clock_steps::{History, requests_made};
use crate::commands::{self, View};
use crate::floats::{Style, not_a_threshold, style, threshold};
use crate::random::Random;
use kairo_ecs_rng::DeterministicStream;
use reference::command::Command;
use reference::refusal::Refusal;

/// The thresholds that the chosen histories draw.
const CHOSEN: [f64; 12] = [2.0, 1.0, 2.0, 2.0, 1.0, 0.5, 4.0, 1.5, 0.25, 3.0, 0.0, -0.0];

/// Thresholds of each style.
const SEGMENT: usize = 176;
const STYLES: [Style; 3] = [Style::Simple, Style::Moderate, Style::Wide];

/// How many of the last thresholds are valid, so that a stream may be used up.
const VALID_END: usize = 6;

/// The chosen thresholds, then a part for each style with some that a draw refuses.
pub fn stream(random: &mut Random) -> Vec<f64> {
    let mut thresholds = CHOSEN.to_vec();
    for style in STYLES {
        thresholds.extend((0..SEGMENT).map(|_| {
            if random.chance(3) {
                not_a_threshold(random)
            } else {
                threshold(random, style)
            }
        }));
    }
    thresholds.extend((0..VALID_END).map(|_| threshold(random, Style::Simple)));
    thresholds
}

/// Mostly in the part of the style; some histories begin near the end, some anywhere.
fn start(random: &mut Random, style: Style, length: usize) -> u64 {
    let place = STYLES.iter().position(|other| *other == style);
    let first = CHOSEN.len() + SEGMENT * place.expect("one of the styles");
    let position = match random.below(10) {
        0 | 1 => length - random.index(VALID_END),
        2 => random.index(length + 1),
        _ => first + random.index(SEGMENT),
    };
    position as u64
}

/// A clock of 1 to 9 causes; a ninth is refused. Ends early where no draw can be made any more.
pub fn history<'a>(random: &mut Random, thresholds: &'a [u8]) -> History<'a> {
    let style = style(random);
    let position = start(random, style, thresholds.len() / 8);
    let stream = DeterministicStream::new(thresholds, position);
    let create = commands::create(random, style, 0);
    let mut history = History::new(create, requests_made(random), stream);
    let causes = random.pick(&[1, 2, 3, 4, 5, 6, 7, 8, 8, 9, 9, 9]);
    let steps = causes + 5 + random.index(14);
    let mut now = 0.0;
    for _ in 0..steps {
        let command = next(random, &history, style, causes, now);
        now = command_time(&command).unwrap_or(now);
        history.step(command);
        if draw_failed(&history) && random.chance(40) {
            break;
        }
    }
    history
}

fn draw_failed(history: &History) -> bool {
    let number = history.steps.last().map_or(0, |step| step.answer.number);
    number == Refusal::StreamExhausted.number() || number == Refusal::InvalidThreshold.number()
}

fn next(random: &mut Random, history: &History, style: Style, causes: usize, now: f64) -> Command {
    let view = View {
        name: 0,
        clock: &history.clock,
        style,
        now,
        due: history.stream.threshold(history.stream.position()),
    };
    let present = history.clock.channels.len();
    if present < causes && random.chance(if present == 0 { 90 } else { 45 }) {
        Command::Set(commands::set_new(random, &view))
    } else if history.clock.scheduled_event_id.is_some() && random.chance(12) {
        Command::Deliver
    } else {
        commands::any(random, &view)
    }
}

/// The time of a command that has one.
pub fn command_time(command: &Command) -> Option<f64> {
    match command {
        Command::Set(set) => Some(set.now),
        Command::Reschedule(operands) | Command::Resume(operands) => Some(operands.now),
        Command::Pause { now, .. } => Some(*now),
        _ => None,
    }
}
