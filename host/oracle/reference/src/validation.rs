//! State validation: refusal 1, as its row lists it and no more; any piece passes.
//!
//! Causes that do not ascend cannot be expressed: the Rust keeps channels in a map by cause.

use crate::clock::{CHANNELS, Clock};
use crate::hazard::Hazard;
use crate::refusal::{Refusal, require};
use crate::state::State;
use kairo_ecs_core::{Queued, Scheduler};
use kairo_ecs_des::HazardChannelState;

/// Requests in the queue.
pub const QUEUE: usize = 16;

/// `thresholds` is the stream's length, which counts whole thresholds; `journal` is in bytes.
pub fn validate(state: &State, thresholds: u64, journal: usize) -> Result<(), Refusal> {
    let valid = state.clocks.iter().flatten().all(clock_valid)
        && queue_valid(state)
        && state.position <= thresholds
        && state.applied_length <= journal as u64
        && state.scheduler.requests_made <= state.applied_length;
    require(valid, Refusal::InvalidState)
}

fn clock_valid(clock: &Clock) -> bool {
    let winner_time = clock.current_winner.map_or(0.0, |(_, time)| time);
    let floats = [clock.tick_scale, clock.last_update_time, winner_time];
    clock.channels.len() <= CHANNELS
        && floats.iter().all(|value| value.is_finite())
        && clock.channels.values().all(channel_valid)
}

fn channel_valid(channel: &HazardChannelState) -> bool {
    let floats = [
        channel.accumulated_hazard,
        channel.target_threshold,
        channel.interval_start_time,
    ];
    floats.iter().all(|value| value.is_finite())
        && Hazard::of(&channel.hazard)
            .is_some_and(|hazard| hazard.rates_in_range() && hazard.pairs_valid())
}

fn queue_valid(state: &State) -> bool {
    let queue = &state.scheduler.queue;
    queue.len() <= QUEUE
        && indices_valid(&state.scheduler)
        && queue.iter().all(|queued| owner_valid(state, queued))
}

/// No index twice, each below the request counter.
fn indices_valid(scheduler: &Scheduler) -> bool {
    let indices: Vec<u64> = scheduler.queue.iter().map(|q| q.id.index).collect();
    let once = |index: &u64| indices.iter().filter(|other| *other == index).count() == 1;
    indices
        .iter()
        .all(|index| once(index) && *index < scheduler.requests_made)
}

/// The request's clock is present, names it and holds a winner.
fn owner_valid(state: &State, queued: &Queued) -> bool {
    let clock = state.clocks.get(usize::from(queued.clock));
    clock.and_then(Option::as_ref).is_some_and(|clock| {
        clock.scheduled_event_id == Some(queued.id) && clock.current_winner.is_some()
    })
}
