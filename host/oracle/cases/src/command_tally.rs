//! How many commands of each sort the clock steps and the sessions hold.

use crate::clock_steps::ClockStep;
use crate::sessions::{Outcome, Session, Step};
use crate::tally::{Tally, count};
use kairo_ecs_des::SurvivalClock;
use reference::answer::Answer;
use reference::choices::TIES;
use reference::command::{Command, NAMES};
use reference::fields::Reader;
use reference::refusal::Refusal;
use reference::state::State;
use std::cmp::Reverse;

pub fn clock_steps(steps: &[ClockStep]) -> Tally {
    let mut tally = Tally::default();
    for step in steps {
        count_command(&mut tally, &step.command, &step.answer);
        if step.position_after > step.position_before {
            count(&mut tally.answers, "draws");
        }
        if decided_by_tie(&step.after, &step.command, &step.answer) {
            count(&mut tally.answers, "decided by the tie choice");
        }
    }
    tally
}

pub fn sessions(sessions: &[Session]) -> Tally {
    let mut tally = Tally::default();
    for session in sessions {
        let outcome = session.expected();
        if outcome.number >= Refusal::AnswersFull.number() {
            count(&mut tally.refusals, outcome.number);
        }
        for step in session.steps().iter().take(answered(&outcome)) {
            count_step(&mut tally, step);
        }
    }
    tally
}

/// How many commands were answered; none where the result was not written.
pub fn answered(outcome: &Outcome) -> usize {
    if outcome.number == Refusal::InvalidBuffers.number() {
        0
    } else {
        Reader(&outcome.result).u64() as usize
    }
}

fn count_step(tally: &mut Tally, step: &Step) {
    let Some(command) = &step.command else {
        count(&mut tally.inputs, "no command");
        count(&mut tally.refusals, step.answer.number);
        return;
    };
    count_command(tally, command, &step.answer);
    let state = &step.before;
    match (command, step.answer.number) {
        (Command::Undo, 0) => count(&mut tally.answers, "undone"),
        (Command::Deliver, 0) => count(&mut tally.answers, delivered_by(state)),
        _ => {}
    }
    let clock = command
        .clock()
        .and_then(|name| state.clocks.get(usize::from(name)));
    if let Some(Some(clock)) = clock
        && decided_by_tie(clock, command, &step.answer)
    {
        count(&mut tally.answers, "decided by the tie choice");
    }
}

fn count_command(tally: &mut Tally, command: &Command, answer: &Answer) {
    count(&mut tally.inputs, NAMES[usize::from(command.code())]);
    if answer.number != 0 {
        count(&mut tally.refusals, answer.number);
        return;
    }
    let plans = matches!(command, Command::Reschedule(_) | Command::Resume(_));
    match (answer.event, answer.censored) {
        (true, true) => count(&mut tally.answers, "censored"),
        (true, false) => count(&mut tally.answers, "events"),
        (false, _) if plans => count(&mut tally.answers, "no event"),
        (false, _) => {}
    }
    if answer.withdrawn {
        count(&mut tally.answers, "withdrawn");
    }
}

/// A queued event whose cause another tie choice would change. RESCHEDULE and RESUME leave what
/// the earliest event depends on, so the clock may be the one before or after.
pub fn decided_by_tie(clock: &SurvivalClock, command: &Command, answer: &Answer) -> bool {
    let (Command::Reschedule(operands) | Command::Resume(operands)) = command else {
        return false;
    };
    let winner = clock.compute_earliest_event(operands.now);
    let other_winner = |tie| {
        let mut other = clock.clone();
        other.tie_breaker = tie;
        other.compute_earliest_event(operands.now) != winner
    };
    answer.event && !answer.censored && TIES.into_iter().any(other_winner)
}

/// What decides which of the queued requests is delivered.
pub fn delivered_by(state: &State) -> &'static str {
    match queued_orders(state).as_slice() {
        [first, second, ..] if first.0 < second.0 => "delivered by ticks",
        [first, second, ..] if first.1 < second.1 => "delivered by priority",
        [_, _, ..] => "delivered by index",
        _ => "delivered, no other queued",
    }
}

/// The priorities of the request that is delivered next and of the one after it, where these decide.
pub fn deciding_priorities(state: &State) -> Option<(i32, i32)> {
    match queued_orders(state).as_slice() {
        [first, second, ..] if first.0 == second.0 && first.1 != second.1 => {
            Some((first.1.0, second.1.0))
        }
        _ => None,
    }
}

/// In the order of delivery.
fn queued_orders(state: &State) -> Vec<(u128, Reverse<i32>, u64)> {
    let mut orders: Vec<_> = state.scheduler.queue.iter().map(|q| q.order()).collect();
    orders.sort_unstable();
    orders
}
