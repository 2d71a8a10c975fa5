//! Commands whose fields are accepted, aimed at the clock that they name: equal waits, thresholds
//! that are just reached, censor times around the event.

use crate::floats::{Style, near, positive, signed, time};
use crate::hazards::hazard;
use crate::random::Random;
use crate::samples::CAUSES;
use crate::weibull;
use kairo_ecs_des::{HazardChannelState, SurvivalClock};
use reference::command::{Command, Create, Reschedule, Set};
use reference::fields::{LIMIT, size_in_range};
use reference::hazard::{CONSTANT, GOMPERTZ, Hazard};
use reference::sampler::threshold_valid;

/// What a command is aimed at.
pub struct View<'a> {
    pub name: u8,
    pub clock: &'a SurvivalClock,
    pub style: Style,
    /// The time of the command before.
    pub now: f64,
    /// The threshold that a draw would give.
    pub due: Option<f64>,
}

/// Waits that several causes may share.
const WAITS: [f64; 5] = [1.0, 2.0, 4.0, 4.0, 8.0];

const CHANNEL_PRIORITIES: [u32; 7] = [0, 0, 1, 1, 2, 9, u32::MAX];
const QUEUE_PRIORITIES: [i32; 8] = [0, 0, 0, 1, -1, 5, i32::MIN, i32::MAX];

pub fn create(random: &mut Random, style: Style, clock: u8) -> Create {
    let has_entity = random.below(2);
    Create {
        clock,
        process: random.word() >> random.below(64),
        policy: random.below(2) as u8,
        tie: random.below(3) as u8,
        scale: scale(random, style),
        has_entity: has_entity as u8,
        entity_index: (has_entity * random.word()) >> random.below(64),
        generation: (has_entity * random.below(1 << 32)) as u32,
    }
}

fn scale(random: &mut Random, style: Style) -> f64 {
    match random.below(6) {
        0 => 1.0,
        1 => random.pick(&[10.0, 0.5, 0.25, 100.0]),
        2 => random.pick(&[0.0, -0.0, -1.0, -LIMIT, LIMIT]),
        _ => signed(random, style),
    }
}

/// Any command from SET to RESUME.
pub fn any(random: &mut Random, view: &View) -> Command {
    match random.below(20) {
        0..5 => Command::Set(set(random, view)),
        5..7 => Command::Remove {
            clock: view.name,
            cause: removed_cause(random, view),
        },
        7..13 => Command::Reschedule(reschedule(random, view)),
        13..16 => Command::Pause {
            clock: view.name,
            now: now(random, view),
        },
        _ => Command::Resume(reschedule(random, view)),
    }
}

/// SET of a cause of the clock or of any other.
pub fn set(random: &mut Random, view: &View) -> Set {
    let cause = if random.chance(65) {
        present_cause(random, view)
    } else {
        None
    };
    let cause = cause.unwrap_or_else(|| random.pick(&CAUSES));
    set_of(random, view, cause)
}

/// SET of a cause that the clock has not.
pub fn set_new(random: &mut Random, view: &View) -> Set {
    let known = |cause: u32| view.clock.channels.values().any(|c| c.cause_id.0 == cause);
    let mut cause = random.pick(&CAUSES);
    while known(cause) {
        cause = cause.wrapping_add(1) % u32::MAX;
    }
    set_of(random, view, cause)
}

fn set_of(random: &mut Random, view: &View, cause: u32) -> Set {
    Set {
        clock: view.name,
        cause,
        priority: random.pick(&CHANNEL_PRIORITIES),
        hazard: aimed_hazard(random, view),
        now: now(random, view),
    }
}

fn present_cause(random: &mut Random, view: &View) -> Option<u32> {
    channel(random, view).map(|channel| channel.cause_id.0)
}

/// One of the channels, the order of the map left out of it.
fn channel<'a>(random: &mut Random, view: &View<'a>) -> Option<&'a HazardChannelState> {
    let mut channels: Vec<&HazardChannelState> = view.clock.channels.values().collect();
    channels.sort_by_key(|channel| channel.cause_id);
    (!channels.is_empty()).then(|| random.pick(&channels))
}

/// The winner, another cause of the clock, or any cause.
fn removed_cause(random: &mut Random, view: &View) -> u32 {
    let winner = view.clock.current_winner.map(|(cause, _)| cause.0);
    let winner = winner.filter(|cause| *cause != u32::MAX);
    let chosen = match random.below(4) {
        0 | 1 => winner,
        2 => present_cause(random, view),
        _ => None,
    };
    chosen.unwrap_or_else(|| random.pick(&CAUSES))
}

/// Any hazard, or one that uses up the next threshold in a wait that others have too.
fn aimed_hazard(random: &mut Random, view: &View) -> Hazard {
    let due = view.due.filter(|w| threshold_valid(*w) && *w > 0.0);
    match due {
        Some(w) if random.chance(50) => hazard_with_wait(random, view.style, w),
        _ => None,
    }
    .unwrap_or_else(|| hazard(random, view.style))
}

/// A hazard that uses up a threshold in one of the waits, if there is one with fields that are accepted.
fn hazard_with_wait(random: &mut Random, style: Style, w: f64) -> Option<Hazard> {
    let wait = random.pick(&WAITS);
    let rate = Some(w / wait).filter(|rate| size_in_range(*rate))?;
    match random.below(7) {
        0 | 1 => Some(Hazard::single_rate(CONSTANT, rate)),
        2 => Some(Hazard::single_rate(GOMPERTZ, rate)),
        3 => weibull::with_wait(w, wait),
        _ => Some(curve_with_rate(random, style, wait, rate)),
    }
}

/// A curve with one rate up to the wait, which ends in any of its pieces: up to three pairs before it, then within a pair, at its end or
/// in the trailing piece.
fn curve_with_rate(random: &mut Random, style: Style, wait: f64, rate: f64) -> Hazard {
    let ends = [0.25, 0.5, 0.75].map(|part| part * wait);
    let before = random.index(ends.len() + 1);
    let mut pairs: Vec<(f64, f64)> = ends[..before].iter().map(|end| (*end, rate)).collect();
    if random.chance(35) {
        return Hazard::piecewise(&pairs, rate);
    }
    pairs.push((random.pick(&[1.0, 1.0, 1.5]) * wait, rate));
    Hazard::piecewise(&pairs, signed(random, style))
}

/// Mostly later than the command before; often when an event or a threshold is due.
pub fn now(random: &mut Random, view: &View) -> f64 {
    let chosen = match random.below(20) {
        0..3 => view.now,
        3 => view.now / 2.0,
        4 => time(random, view.style),
        5 => random.pick(&[0.0, LIMIT, LIMIT.next_down(), f64::from_bits(1)]),
        6..8 => view.clock.current_winner.map_or(view.now, |(_, time)| time),
        8..10 => threshold_time(random, view).unwrap_or(view.now),
        _ => view.now + positive(random, view.style),
    };
    chosen.min(LIMIT)
}

/// When a channel reaches its threshold.
fn threshold_time(random: &mut Random, view: &View) -> Option<f64> {
    let channel = channel(random, view)?;
    let rest = channel.target_threshold - channel.accumulated_hazard;
    let wait = channel.hazard.invert_cumulative_hazard(0.0, rest)?;
    Some(near(random, channel.interval_start_time + wait).abs())
}

/// The operands of RESCHEDULE and RESUME.
pub fn reschedule(random: &mut Random, view: &View) -> Reschedule {
    let mut operands = Reschedule {
        clock: view.name,
        now: now(random, view),
        priority: random.pick(&QUEUE_PRIORITIES),
        ..Reschedule::default()
    };
    if random.chance(45) {
        operands.has_censor = 1;
        operands.censor = censor(random, view, operands.now);
    }
    operands
}

/// A censor time before, at or after now or the event.
fn censor(random: &mut Random, view: &View, now: f64) -> f64 {
    let event = view.clock.compute_earliest_event(now);
    let event = event.map_or(now, |(_, time)| time.min(LIMIT));
    let chosen = match random.below(10) {
        0 => near(random, now),
        1 => now / 2.0,
        2 => random.pick(&[0.0, LIMIT]),
        3 | 4 => now + (event - now) / 2.0,
        5 | 6 => event + positive(random, view.style),
        _ => near(random, event),
    };
    chosen.abs().min(LIMIT)
}
