//! What each command does to one clock (document 01, "Clocks"): the methods of hazard_clock.rs and
//! the answers made of what they return; and the winner's piece, which the Rust does not know
//! (document 02, change 6).

use crate::answer::Answer;
use crate::choices::{POLICIES, TIES};
use crate::command::{Command, Create, Reschedule, Set};
use crate::hazard::Hazard;
use crate::piece::{piece, to_byte};
use crate::refusal::{Refusal, require};
use crate::sampler::draw_refusal;
use kairo_ecs_core::{Queued, Scheduler};
use kairo_ecs_des::SurvivalClock;
use kairo_ecs_rng::{CauseId, DeterministicStream, RealizedEvent};
use kairo_ecs_types::EntityId;
use std::mem;
use std::ops::{Deref, DerefMut};

/// Channels of a clock.
pub const CHANNELS: usize = 8;

/// The Rust's clock, and beside it the piece of its winner.
#[derive(Clone, Debug)]
pub struct Clock {
    unchanged: SurvivalClock,
    /// 0 where there is no winner, and for a censored one.
    pub piece: u8,
}

impl Clock {
    pub fn new(unchanged: SurvivalClock, piece: u8) -> Self {
        Self { unchanged, piece }
    }
}

impl Deref for Clock {
    type Target = SurvivalClock;

    fn deref(&self) -> &SurvivalClock {
        &self.unchanged
    }
}

impl DerefMut for Clock {
    fn deref_mut(&mut self) -> &mut SurvivalClock {
        &mut self.unchanged
    }
}

pub fn create(create: &Create) -> Clock {
    let entity = EntityId::new(create.entity_index, create.generation);
    let unchanged = SurvivalClock::new(
        create.process,
        (create.has_entity == 1).then_some(entity),
        POLICIES[usize::from(create.policy)],
        TIES[usize::from(create.tie)],
        create.scale,
    );
    Clock::new(unchanged, 0)
}

/// By 10: a ninth cause.
pub fn cause_refusal(clock: &SurvivalClock, set: &Set) -> Result<(), Refusal> {
    let has_place =
        clock.channels.len() < CHANNELS || clock.channels.contains_key(&CauseId(set.cause));
    require(has_place, Refusal::TooManyCauses)
}

/// By 15 or 16, where a draw is due.
pub fn set_refusal(
    clock: &SurvivalClock,
    set: &Set,
    stream: &DeterministicStream,
) -> Result<(), Refusal> {
    match draw_refusal(stream, 1) {
        Some(refusal) if draw_is_due(clock, set) => Err(refusal),
        _ => Ok(()),
    }
}

/// Whether the Rust would draw: tried on a copy of the clock and a stream of one threshold.
pub fn draw_is_due(clock: &SurvivalClock, set: &Set) -> bool {
    let mut trial = DeterministicStream::new(&[0; 8], 0);
    self::set(&mut clock.clone(), set, &mut trial);
    trial.position() > 0
}

/// What an accepted command from SET to RESUME does to the clock that it names.
pub fn apply(
    clock: &mut Clock,
    scheduler: &mut Scheduler,
    stream: &mut DeterministicStream,
    command: &Command,
) -> Answer {
    match command {
        Command::Set(operands) => set(clock, operands, stream),
        Command::Remove { cause, .. } => clock.remove_channel(CauseId(*cause)),
        Command::Reschedule(operands) => return reschedule(clock, scheduler, operands),
        Command::Resume(operands) => return resume(clock, scheduler, operands),
        Command::Pause { now, .. } => return pause(clock, scheduler, *now),
        Command::Create(_) | Command::Deliver | Command::Undo => {
            unreachable!("names no clock that is present")
        }
    }
    Answer::default()
}

fn set(clock: &mut SurvivalClock, set: &Set, stream: &mut DeterministicStream) {
    let cause = CauseId(set.cause);
    clock.set_channel(cause, set.priority, set.hazard.build(), set.now, stream);
}

fn reschedule(clock: &mut Clock, scheduler: &mut Scheduler, operands: &Reschedule) -> Answer {
    let (now, censor, priority) = (operands.now, operands.censor_time(), operands.priority);
    let withdrawn = is_queued(clock, scheduler);
    let lent = scheduler.lent_to(operands.clock);
    let event = clock.reschedule(lent, now, censor, priority);
    queued_answer(clock, scheduler, event, withdrawn)
}

fn resume(clock: &mut Clock, scheduler: &mut Scheduler, operands: &Reschedule) -> Answer {
    let (now, censor, priority) = (operands.now, operands.censor_time(), operands.priority);
    let withdrawn = is_queued(clock, scheduler);
    let lent = scheduler.lent_to(operands.clock);
    let event = clock.resume(lent, now, censor, priority);
    queued_answer(clock, scheduler, event, withdrawn)
}

fn pause(clock: &mut SurvivalClock, scheduler: &mut Scheduler, now: f64) -> Answer {
    let before = scheduler.queue.len();
    clock.pause(scheduler, now);
    Answer {
        withdrawn: scheduler.queue.len() < before,
        ..Answer::default()
    }
}

/// The answer to DELIVER: ticks from the request, the piece that was queued, all else from
/// `on_event_dispatched`.
pub fn deliver(clock: &mut Clock, request: &Queued) -> Answer {
    let event = clock.on_event_dispatched();
    let piece = mem::take(&mut clock.piece);
    Answer::sampled(event, piece).with_ticks(request.request.at.ticks())
}

/// Whether the request that the clock names is in the queue. If so, `reschedule` cancels it.
fn is_queued(clock: &SurvivalClock, scheduler: &Scheduler) -> bool {
    let named = clock.scheduled_event_id;
    named.is_some_and(|id| scheduler.find(id).is_some())
}

/// The answer to RESCHEDULE and RESUME, whose winner is now held with its piece. Without an event
/// winner and piece stay.
fn queued_answer(
    clock: &mut Clock,
    scheduler: &Scheduler,
    event: Option<RealizedEvent>,
    withdrawn: bool,
) -> Answer {
    if let Some(event) = event {
        clock.piece = event_piece(clock, event);
    }
    let queued = clock.scheduled_event_id.and_then(|id| scheduler.find(id));
    let ticks = queued.map_or(0, |queued| queued.request.at.ticks());
    Answer {
        withdrawn,
        ..Answer::sampled(event, clock.piece).with_ticks(ticks)
    }
}

/// The piece of the winning cause's channel, inverted from age 0 for what is left of its threshold;
/// 0 where nothing is left. A censored event has 0.
fn event_piece(clock: &SurvivalClock, event: RealizedEvent) -> u8 {
    if event.is_censored {
        return 0;
    }
    let channel = &clock.channels[&event.winning_cause];
    let hazard = Hazard::of(&channel.hazard).expect("a hazard that is carried");
    let left = channel.target_threshold - channel.accumulated_hazard;
    to_byte(piece(&hazard, 0.0, left))
}
