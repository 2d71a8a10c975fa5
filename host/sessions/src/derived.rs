//! What the wrapper derives from answers alone (draws, pending events, clocks, the clock of a delivered event, the piece of a curve that
//! an event falls in), held to the oracle's state.

use cases::sessions::{Session, Step};
use kairo_ecs_des::{HazardChannelState, SurvivalClock};
use kairo_ecs_types::EventKind;
use olgaemuri::{Cause, Clock, Command, Outcome, thresholds_from_bytes};
use reference::choices::{POLICIES, TIES};
use reference::hazard::{Hazard, PIECEWISE};
use reference::state::State;

/// The first of these that differs, in words.
pub fn difference(session: &Session) -> Option<String> {
    let mut session = session.clone();
    // The list's end is now refused whatever stands before it, so that the last step begins with the state after all others.
    session.commands.extend([0; 200]);
    session.stream.truncate(session.stream.len() / 8 * 8);
    let steps = session.steps();
    let state = &steps.last().expect("the list is not empty").before;
    let wrapped = through_wrapper(&session);
    let run = wrapped.run();
    let applied: usize = run.applied().map(|applied| applied.command.width()).sum();
    let same = [
        ("the draws", wrapped.draws() as u64 == state.position),
        (
            "the applied commands",
            applied as u64 == state.applied_length,
        ),
        ("the pending events", same_pending(run, state)),
        ("the clocks", same_clocks(run, state)),
        (
            "the clocks of delivered events",
            same_delivered(run, &steps),
        ),
        ("the pieces of queued events", same_struck(run, &steps)),
    ];
    let (what, _) = same.iter().find(|(_, same)| !same)?;
    Some(format!("{what} of the wrapper are not the oracle's"))
}

fn through_wrapper(session: &Session) -> olgaemuri::Session {
    let thresholds = thresholds_from_bytes(&session.stream).expect("whole thresholds");
    let mut wrapped = olgaemuri::Session::new(thresholds).with_journal_length(session.journal);
    wrapped.push_raw(&session.commands);
    wrapped
}

/// Clock, order of delivery, cause and piece of each.
fn same_pending(run: &Outcome, state: &State) -> bool {
    let mut queue = state.scheduler.queue.clone();
    queue.sort_by_key(|queued| queued.order());
    let piece = |clock: u8| state.clocks[usize::from(clock)].as_ref().map(|c| c.piece);
    let queued = queue.iter().map(|queued| {
        (
            queued.clock,
            queued.order(),
            queued.request.kind,
            piece(queued.clock),
        )
    });
    let pending = run.pending().into_iter();
    pending
        .map(|event| {
            (
                event.clock,
                event.delivery_order(),
                EventKind::Custom(event.cause),
                Some(event.piece),
            )
        })
        .eq(queued)
}

fn same_clocks(run: &Outcome, state: &State) -> bool {
    let present = state
        .clocks
        .iter()
        .zip(0..)
        .filter_map(|(clock, number)| Some((clock.as_ref()?, number)));
    let present: Vec<_> = present.collect();
    let mut pairs = run.clocks.iter().zip(&present);
    run.clocks.len() == present.len()
        && pairs.all(|(clock, (other, number))| clock.number == *number && same_clock(clock, other))
}

fn same_clock(clock: &Clock, other: &SurvivalClock) -> bool {
    let mut channels: Vec<&HazardChannelState> = other.channels.values().collect();
    channels.sort_by_key(|channel| channel.cause_id);
    let mut pairs = clock.causes.iter().zip(&channels);
    let entity = clock.entity.map(|entity| (entity.index, entity.generation));
    clock.process == other.process_id
        && entity == other.entity.map(|entity| (entity.index, entity.generation))
        && POLICIES[usize::from(clock.policy.number())] == other.policy
        && TIES[usize::from(clock.tie.number())] == other.tie_breaker
        && clock.scale.to_bits() == other.tick_scale.to_bits()
        && clock.active == other.is_active
        && clock.causes.len() == channels.len()
        && pairs.all(|(cause, channel)| same_cause(cause, channel))
}

fn same_cause(cause: &Cause, channel: &HazardChannelState) -> bool {
    let hazard = Hazard::of(&channel.hazard).expect("a hazard that is carried");
    let used = &hazard.pairs[..usize::from(hazard.count)];
    let pairs = cause
        .hazard
        .pairs()
        .iter()
        .flat_map(|pair| [pair.end, pair.rate]);
    cause.number == channel.cause_id.0
        && cause.priority == channel.priority
        && cause.hazard.kind() == hazard.kind
        && cause.hazard.first().to_bits() == hazard.first.to_bits()
        && pairs.eq(used.iter().flat_map(|pair| [pair.end, pair.rate]))
}

/// Each accepted DELIVER, undone or not, takes the event of the clock that comes next in the oracle's queue.
fn same_delivered(run: &Outcome, steps: &[Step]) -> bool {
    run.steps.iter().zip(steps).all(|(step, other)| {
        let delivered =
            step.input.command() == Some(&Command::Deliver) && step.answer.is_accepted();
        !delivered || step.clock == other.before.scheduler.next().map(|queued| queued.clock)
    })
}

/// Each event that is queued: number, end and rate of its piece, where the cause's hazard is a curve.
fn same_struck(run: &Outcome, steps: &[Step]) -> bool {
    run.steps.iter().zip(steps).all(|(step, other)| {
        let queued = other.answer.event && step.input.command() != Some(&Command::Deliver);
        let struck = step
            .struck()
            .map(|piece| (piece.number, piece.to, piece.rate));
        !queued || struck == struck_piece(other)
    })
}

/// The piece that the oracle answers, of the curve of the winner's channel.
fn struck_piece(step: &Step) -> Option<(u8, Option<f64>, f64)> {
    let name = step.command.as_ref()?.clock()?;
    let clock = step.before.clocks[usize::from(name)].as_ref()?;
    let mut channels = clock.channels.values();
    let winner = channels.find(|channel| channel.cause_id.0 == step.answer.cause)?;
    let hazard = Hazard::of(&winner.hazard).filter(|hazard| hazard.kind == PIECEWISE)?;
    let number = step.answer.piece;
    let pair = hazard.used().get(usize::from(number));
    let rate = pair.map_or(hazard.first, |pair| pair.rate);
    let rate = if rate > 0.0 { rate } else { 0.0 };
    Some((number, pair.map(|pair| pair.end), rate))
}
