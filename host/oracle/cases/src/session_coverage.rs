//! What a list of sessions shows, read off what they do and not off how they were made.

use crate::command_tally::{answered, decided_by_tie, deciding_priorities, delivered_by};
use crate::piece_coverage::of_pieces;
use crate::sessions::{Outcome, Session, Step};
use crate::tally::count;
use crate::weibull_coverage::of_weibull;
use kairo_ecs_rng::{DeterministicStream, THRESHOLD_BYTES};
use reference::answer::ANSWER_BYTES;
use reference::batch::RESULT_BYTES;
use reference::clock::CHANNELS;
use reference::command::Command;
use reference::command_fields::CLOCKS;
use reference::fields::LIMIT;
use reference::refusal::Refusal;
use reference::sampler::threshold_valid;
use reference::state::State;
use std::collections::BTreeMap;

/// How many sessions show a thing, and how often each number was answered or returned.
#[derive(Debug, Default)]
pub struct Coverage {
    pub sessions: BTreeMap<&'static str, usize>,
    pub numbers: BTreeMap<u8, usize>,
}

impl Coverage {
    pub fn add(&mut self, session: &Session) {
        let outcome = session.expected();
        let all = session.steps();
        let (steps, unanswered) = all.split_at(answered(&outcome).min(all.len()));
        for step in steps {
            count(&mut self.numbers, step.answer.number);
        }
        if outcome.number >= Refusal::AnswersFull.number() {
            count(&mut self.numbers, outcome.number);
        }
        let mut shown = of_buffers(session, &outcome);
        shown.extend(of_steps(steps));
        shown.extend(of_undos(steps, unanswered));
        shown.extend(of_weibull(steps));
        shown.extend(of_pieces(steps));
        for (name, is_shown) in shown {
            if is_shown {
                count(&mut self.sessions, name);
            }
        }
    }
}

type Shown = Vec<(&'static str, bool)>;

fn of_buffers(session: &Session, outcome: &Outcome) -> Shown {
    let ended_by = |refusal: Refusal| outcome.number == refusal.number();
    let (stream, answers) = (session.stream.len(), session.answers);
    let cut_within = ended_by(Refusal::AnswersFull) && !answers.is_multiple_of(ANSWER_BYTES);
    vec![
        ("tiny journal", session.journal < 40),
        ("short stream", stream < 3 * THRESHOLD_BYTES),
        ("bad threshold", has_bad_threshold(&session.stream)),
        ("junk bytes", ended_by(Refusal::UnknownCode)),
        ("command cut short", ended_by(Refusal::CutShort)),
        ("answers cut", ended_by(Refusal::AnswersFull)),
        ("answer cut within", cut_within),
        ("threshold cut", !stream.is_multiple_of(THRESHOLD_BYTES)),
        ("other result", session.result != RESULT_BYTES),
    ]
}

fn has_bad_threshold(stream: &[u8]) -> bool {
    let stream = DeterministicStream::new(stream, 0);
    let mut thresholds = (0..stream.len()).filter_map(|index| stream.threshold(index));
    thresholds.any(|w| !threshold_valid(w))
}

fn of_steps(steps: &[Step]) -> Shown {
    let undone = steps.iter().filter(|step| accepted(step, is_undo)).count();
    let some = |test: &dyn Fn(&Step) -> bool| steps.iter().any(test);
    let delivered = |rule| {
        let by = |step: &Step| accepted(step, is_deliver) && delivered_by(&step.before) == rule;
        some(&by)
    };
    let requests = |state: &State| state.scheduler.requests_made;
    let queued = |step: &Step| step.before.scheduler.queue.len();
    let damaged = |step: &Step| (4..=7).contains(&step.answer.number);
    vec![
        ("many undos", undone >= 10 && 4 * undone >= steps.len()),
        ("undone draw", undoes(steps, |state| state.position)),
        ("undone request", undoes(steps, requests)),
        ("tie", some(&is_tie)),
        ("by priority", delivered("delivered by priority")),
        ("by sign", some(&|s| by_priorities(s, of_two_signs))),
        ("highest first", some(&|s| by_priorities(s, highest_first))),
        ("lowest second", some(&|s| by_priorities(s, lowest_second))),
        ("by index", delivered("delivered by index")),
        ("all clocks full", some(&|s| clocks_full(&s.before))),
        ("queue full", some(&|step| queued(step) == CLOCKS)),
        ("damaged field", some(&damaged)),
        ("extreme float", some(&|s| accepted(s, has_extreme_float))),
    ]
}

/// UNDOs by what stands before and after them: an engine may take an UNDO together with the command before it, and put a replay off.
fn of_undos(steps: &[Step], unanswered: &[Step]) -> Shown {
    let is_command = |step: &Step| accepted(step, |command| !is_undo(command));
    let is_reverted = |step: &Step| accepted(step, is_undo);
    let goes_on = |step: &Step| step.command.as_ref().is_some_and(|c| !is_undo(c));
    let some = |length, test: &dyn Fn(&[Step]) -> bool| steps.windows(length).any(test);
    let at_once = |s: &[Step]| is_command(&s[0]) && is_reverted(&s[1]);
    let in_a_row = |s: &[Step]| s.iter().all(is_reverted);
    let replayed = |s: &[Step]| !is_command(&s[0]) && is_reverted(&s[1]) && goes_on(&s[2]);
    let next_is_undo = unanswered
        .first()
        .is_some_and(|s| s.command == Some(Command::Undo));
    vec![
        ("undo at once", some(2, &at_once)),
        ("undos in a row", some(3, &in_a_row)),
        ("undo to replay", some(3, &replayed)),
        (
            "no room for an undo",
            steps.last().is_some_and(is_command) && next_is_undo,
        ),
    ]
}

fn accepted(step: &Step, test: impl Fn(&Command) -> bool) -> bool {
    step.answer.number == 0 && step.command.as_ref().is_some_and(test)
}

fn is_undo(command: &Command) -> bool {
    *command == Command::Undo
}

fn is_deliver(command: &Command) -> bool {
    *command == Command::Deliver
}

/// Whether the priorities decide which request is delivered, and are of a sort.
fn by_priorities(step: &Step, sort: fn(i32, i32) -> bool) -> bool {
    let decide = |(first, second)| sort(first, second);
    accepted(step, is_deliver) && deciding_priorities(&step.before).is_some_and(decide)
}

/// One is below 0 and one is not: as unsigned numbers they would stand the other way round.
fn of_two_signs(first: i32, second: i32) -> bool {
    (first < 0) != (second < 0)
}

fn highest_first(first: i32, _: i32) -> bool {
    first == i32::MAX
}

/// With its sign turned, it would overflow.
fn lowest_second(_: i32, second: i32) -> bool {
    second == i32::MIN
}

/// Whether an UNDO changes a number of the state. The step after it has the state that it leaves.
fn undoes(steps: &[Step], number: impl Fn(&State) -> u64) -> bool {
    let changed = |pair: &[Step]| number(&pair[0].before) != number(&pair[1].before);
    let mut pairs = steps.windows(2);
    pairs.any(|pair| accepted(&pair[0], is_undo) && changed(pair))
}

fn is_tie(step: &Step) -> bool {
    step.command.as_ref().is_some_and(|command| {
        let name = command.clock().map(usize::from);
        let clock = name.and_then(|name| step.before.clocks.get(name)?.as_ref());
        clock.is_some_and(|clock| decided_by_tie(clock, command, &step.answer))
    })
}

fn clocks_full(state: &State) -> bool {
    let full = state.clocks.iter().flatten();
    full.filter(|clock| clock.channels.len() == CHANNELS)
        .count()
        == CLOCKS
}

/// A rate or time that is subnormal, at the limit or beside it.
fn has_extreme_float(command: &Command) -> bool {
    let extreme = |value: f64| {
        let size = value.abs();
        (size > 0.0 && size < f64::MIN_POSITIVE) || size >= LIMIT.next_down()
    };
    match command {
        Command::Set(set) => extreme(set.hazard.first) || extreme(set.now),
        Command::Reschedule(operands) | Command::Resume(operands) => extreme(operands.now),
        Command::Pause { now, .. } => extreme(*now),
        _ => false,
    }
}
