//! Chosen histories of a single clock: rows 7 to 12 of document 01's table, and the cases where a
//! clock that is written anew is likely to part from the Rust. All draw from the start of the
//! stream: 2.0, 1.0, 2.0, 2.0, 1.0, 0.5, 4.0, 1.5, 0.25, 3.0, 0.0, -0.0.

use crate::clock_steps::History;
use crate::floats::SMALLEST;
use crate::{chosen_pieces, chosen_weibull};
use kairo_ecs_rng::DeterministicStream;
use reference::command::{Command, Create, Reschedule, Set};
use reference::fields::LIMIT;
use reference::hazard::{CONSTANT, Hazard, PIECEWISE};

pub(crate) const RESTART: u8 = 0;
pub(crate) const RETAIN: u8 = 1;

/// Where the thresholds 0.0 and -0.0 stand in the stream.
const ZERO_THRESHOLDS: u64 = 10;

/// A clock of document 01's rows 9 to 12, but for policy, tie and scale.
pub fn create(policy: u8, tie: u8, scale: f64) -> Create {
    Create {
        process: 1,
        policy,
        tie,
        scale,
        ..Create::default()
    }
}

pub fn constant(cause: u32, rate: f64, now: f64) -> Command {
    hazard(cause, 0, Hazard::single_rate(CONSTANT, rate), now)
}

pub(crate) fn hazard(cause: u32, priority: u32, hazard: Hazard, now: f64) -> Command {
    Command::Set(Set {
        clock: 0,
        cause,
        priority,
        hazard,
        now,
    })
}

fn operands(now: f64, censor: Option<f64>) -> Reschedule {
    Reschedule {
        now,
        has_censor: u8::from(censor.is_some()),
        censor: censor.unwrap_or(0.0),
        ..Reschedule::default()
    }
}

pub fn reschedule(now: f64) -> Command {
    Command::Reschedule(operands(now, None))
}

pub fn censored(now: f64, censor: f64) -> Command {
    Command::Reschedule(operands(now, Some(censor)))
}

pub fn resume(now: f64) -> Command {
    Command::Resume(operands(now, None))
}

pub fn pause(now: f64) -> Command {
    Command::Pause { clock: 0, now }
}

pub fn remove(cause: u32) -> Command {
    Command::Remove { clock: 0, cause }
}

/// A CREATE, the draw position it begins with, and the commands after it.
pub(crate) type Chosen = (Create, u64, Vec<Command>);

pub fn histories(thresholds: &[u8]) -> Vec<History<'_>> {
    let all = [
        rows(),
        ties(),
        ticks(),
        censors(),
        pauses(),
        draws(),
        floats(),
        chosen_weibull::histories(),
        chosen_pieces::histories(),
    ];
    let run = |(create, position, commands): Chosen| {
        let stream = DeterministicStream::new(thresholds, position);
        let mut history = History::new(create, 0, stream);
        commands.into_iter().for_each(|c| history.step(c));
        history
    };
    all.into_iter().flatten().map(run).collect()
}

/// Rows 9 and 10, row 11, row 12 with the censor time at, below and above the event's.
fn rows() -> Vec<Chosen> {
    let clock = create(RETAIN, 0, 10.0);
    let (set, now) = (constant(1, 0.5, 0.0), reschedule(0.0));
    let paused = vec![set, now, pause(1.0), resume(3.0), Command::Deliver];
    let mut all = vec![
        (clock, 0, paused),
        (
            clock,
            0,
            vec![set, now, constant(1, 0.5, 4.0), reschedule(4.0)],
        ),
    ];
    for censor in [4.0, 4.0f64.next_down(), 4.0f64.next_up()] {
        let steps = vec![set, censored(0.0, censor), Command::Deliver];
        all.push((clock, 0, steps));
    }
    all
}

/// Waits of 4.0 for causes 3, 7 and 5 under each tie; then waits that differ but end at the same
/// rounded time; then queued times that differ and have the same ticks.
fn ties() -> Vec<Chosen> {
    let mut all = Vec::new();
    let set =
        |cause, priority, rate| hazard(cause, priority, Hazard::single_rate(CONSTANT, rate), 0.0);
    for tie in 0..3 {
        let tied = vec![
            set(3, 1, 0.5),
            set(7, 9, 0.25),
            set(5, 9, 0.5),
            reschedule(0.0),
        ];
        all.push((create(RESTART, tie, 1.0), 0, tied));
        let close = vec![set(3, 1, LIMIT), set(7, 9, LIMIT), reschedule(LIMIT)];
        all.push((create(RESTART, tie, 1.0), 0, close));
        let same_ticks = vec![set(3, 1, 0.5), set(7, 9, 0.24), reschedule(0.0)];
        all.push((create(RESTART, tie, 0.01), 0, same_ticks));
    }
    all
}

/// Row 8 by censor times without a channel, and ticks from 2^128 on.
fn ticks() -> Vec<Chosen> {
    let below_half = 0.5f64.next_down();
    let below_two_64 = 16_777_216.0f64.next_down();
    let mut all = Vec::new();
    for (scale, censor) in [
        (1.0, 0.5),
        (1.0, 2.5),
        (1.0, below_half),
        (16_777_216.0, LIMIT),
        (below_two_64, LIMIT),
        (LIMIT, LIMIT),
        (-0.0, 1.5),
    ] {
        let steps = vec![censored(0.0, censor), Command::Deliver];
        all.push((create(RESTART, 0, scale), 0, steps));
    }
    for scale in [1.0, LIMIT, SMALLEST] {
        let far = vec![constant(1, 1e-300, 0.0), reschedule(0.0), Command::Deliver];
        all.push((create(RETAIN, 1, scale), 0, far));
    }
    all
}

/// A censor time before, at and after now, with a candidate and without one; and a delivered delta
/// that differs from the queued one in its last bit.
fn censors() -> Vec<Chosen> {
    let clock = create(RETAIN, 0, 10.0);
    let mut all = Vec::new();
    for censor in [0.5, 1.0, 3.0] {
        let with = vec![
            constant(1, 0.5, 1.0),
            censored(1.0, censor),
            Command::Deliver,
        ];
        all.push((clock, 0, with));
        all.push((clock, 0, vec![censored(1.0, censor)]));
    }
    let last_bit = censored(f64::EPSILON / 2.0, 1.0 + f64::EPSILON);
    all.push((clock, 0, vec![last_bit, Command::Deliver]));
    all
}

/// Pauses and resumes out of turn, the winner removed, and no event found.
fn pauses() -> Vec<Chosen> {
    let (set, now) = (constant(1, 0.5, 0.0), reschedule(0.0));
    let lists = [
        vec![set, pause(1.0), resume(2.0)],
        vec![set, now, pause(1.0), pause(2.0), constant(1, 0.5, 3.0)],
        vec![set, now, resume(1.0), resume(2.0), pause(3.0)],
        vec![set, now, Command::Deliver, pause(1.0), reschedule(2.0)],
        vec![set, now, remove(1), pause(1.0), remove(1)],
        vec![set, now, remove(1), Command::Deliver, reschedule(1.0)],
        vec![
            set,
            now,
            remove(1),
            reschedule(1.0),
            constant(1, 0.5, 1.5),
            pause(2.0),
        ],
        vec![set, now, reschedule(3.0), reschedule(3.0), pause(2.0)],
    ];
    let policies = [RESTART, RETAIN];
    let with = |policy| move |list| (create(policy, 0, 10.0), 0, list);
    let all = policies.map(|policy| lists.clone().map(with(policy)));
    all.into_iter().flatten().collect()
}

/// Nine causes; thresholds of both zeros; a threshold reached, passed and not reached.
fn draws() -> Vec<Chosen> {
    let nine = (0..9).map(|cause| constant(9 - cause, 0.5, 0.0));
    let nine: Vec<Command> = nine
        .chain([constant(5, 1.0, 1.0), reschedule(1.0)])
        .collect();
    let zero = |cause| hazard(cause, 0, Hazard::default(), 0.0);
    let zeros = vec![zero(2), zero(1), reschedule(3.0), Command::Deliver];
    let mut all = vec![
        (create(RESTART, 0, 1.0), 0, nine.clone()),
        (create(RETAIN, 1, 1.0), 0, nine),
        (create(RETAIN, 1, 1.0), ZERO_THRESHOLDS, zeros),
    ];
    for policy in [RESTART, RETAIN] {
        for then in [4.0, 4.0f64.next_down(), 9.0] {
            let steps = vec![
                constant(1, 0.5, 0.0),
                constant(1, 0.25, then),
                reschedule(then),
            ];
            all.push((create(policy, 0, 10.0), 0, steps));
        }
    }
    all
}

/// Rates of negative zero and below it, the limits, and a wait that is infinite.
fn floats() -> Vec<Chosen> {
    let clock = create(RETAIN, 0, 1.0);
    let pairs = [(SMALLEST, -0.0), (2.0, -1.0), (LIMIT, 0.5)];
    let mut all = Vec::new();
    for first in [-0.0, -1.0, SMALLEST, LIMIT] {
        for kind in CONSTANT..=PIECEWISE {
            let given = hazard(4, 1, Hazard::single_rate(kind, first), 0.0);
            let steps = vec![
                given,
                reschedule(0.0),
                pause(1.0),
                resume(LIMIT),
                pause(LIMIT),
            ];
            all.push((clock, 0, steps));
        }
        let given = hazard(4, 1, Hazard::piecewise(&pairs, first), 1.0);
        let steps = vec![given, reschedule(1.0), pause(LIMIT), resume(0.0)];
        all.push((clock, 0, steps));
    }
    all
}
