//! What a session's steps show of hazard kind 4 (document 02, change 4).

use crate::sessions::Step;
use kairo_ecs_des::HazardChannelState;
use reference::clock::Clock;
use reference::command::Command;
use reference::hazard::{Hazard, SMALLEST_SCALE, WEIBULL};

pub fn of_weibull(steps: &[Step]) -> [(&'static str, bool); 5] {
    let some = |test: fn(&Step) -> bool| steps.iter().any(test);
    [
        ("kind 4 wins", some(wins)),
        ("kind 4 settled", some(settles)),
        ("kind 4 is Zero", some(sets_zero)),
        ("smallest scale", some(sets_smallest)),
        ("scale too small", some(is_too_small)),
    ]
}

/// The clock that a step's command names, as the command finds it.
fn clock(step: &Step) -> Option<&Clock> {
    let name = step.command.as_ref()?.clock()?;
    step.before.clocks.get(usize::from(name))?.as_ref()
}

/// The scale of a channel of kind 4 that is not Zero.
fn scale(channel: &HazardChannelState) -> Option<f64> {
    let hazard = Hazard::of(&channel.hazard)?;
    (hazard.kind == WEIBULL && hazard.first > 0.0).then_some(hazard.first)
}

/// An event of such a channel, after a wait.
fn wins(step: &Step) -> bool {
    let plans = matches!(
        step.command,
        Some(Command::Reschedule(_) | Command::Resume(_))
    );
    let answer = &step.answer;
    let mut channels = clock(step).into_iter().flat_map(|c| c.channels.values());
    plans
        && answer.event
        && answer.delta > 0.0
        && channels.any(|c| c.cause_id.0 == answer.cause && scale(c).is_some())
}

/// A PAUSE after which such a channel has accumulated more.
fn settles(step: &Step) -> bool {
    let Some(Command::Pause { now, .. }) = step.command else {
        return false;
    };
    let Some(clock) = clock(step).filter(|clock| clock.is_active) else {
        return false;
    };
    let mut channels = clock.channels.values();
    step.answer.number == 0 && channels.any(|c| scale(c).is_some() && c.interval_start_time < now)
}

/// The hazard of a SET of kind 4, with the number of its answer.
fn given(step: &Step) -> Option<(Hazard, u8)> {
    match &step.command {
        Some(Command::Set(set)) if set.hazard.kind == WEIBULL => {
            Some((set.hazard, step.answer.number))
        }
        _ => None,
    }
}

fn sets_zero(step: &Step) -> bool {
    given(step).is_some_and(|(hazard, number)| number == 0 && hazard.first <= 0.0)
}

fn sets_smallest(step: &Step) -> bool {
    given(step).is_some_and(|(hazard, number)| number == 0 && hazard.first == SMALLEST_SCALE)
}

/// Refused by 5, with a scale that is too small.
fn is_too_small(step: &Step) -> bool {
    given(step).is_some_and(|(hazard, number)| {
        number == 5 && hazard.first > 0.0 && hazard.first < SMALLEST_SCALE
    })
}
