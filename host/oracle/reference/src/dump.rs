//! A clock and a whole state as bytes, little-endian: every field of document 01's state, floats by
//! their bits.

use crate::choices::{POLICIES, TIES, number_of};
use crate::clock::{CHANNELS, Clock};
use crate::hazard::{HAZARD_BYTES, Hazard};
use crate::state::State;
use kairo_ecs_core::Queued;
use kairo_ecs_des::{HazardChannelState, SurvivalClock};

/// Cause, priority, hazard, accumulated hazard, threshold, interval start.
pub const CHANNEL_BYTES: usize = 8 + HAZARD_BYTES + 24;
pub const CLOCK_BYTES: usize = 64 + CHANNELS * CHANNEL_BYTES;
/// Clock, index, ticks low and high, priority.
pub const QUEUED_BYTES: usize = 29;

/// Whether two states are equal in every field.
pub fn same_state(a: &State, b: &State) -> bool {
    dump_state(a) == dump_state(b)
}

/// Draw position, applied length, request counter; the queue's length and its requests, in the order
/// of its places; then each clock: 1 and its bytes, or 0.
pub fn dump_state(state: &State) -> Vec<u8> {
    let mut out = Vec::new();
    out.extend(state.position.to_le_bytes());
    out.extend(state.applied_length.to_le_bytes());
    out.extend(state.scheduler.requests_made.to_le_bytes());
    out.extend((state.scheduler.queue.len() as u64).to_le_bytes());
    state
        .scheduler
        .queue
        .iter()
        .for_each(|queued| dump_queued(queued, &mut out));
    for clock in &state.clocks {
        out.push(u8::from(clock.is_some()));
        if let Some(clock) = clock {
            dump_clock(clock, &mut out);
        }
    }
    out
}

pub fn dump_queued(queued: &Queued, out: &mut Vec<u8>) {
    out.push(queued.clock);
    out.extend(queued.id.index.to_le_bytes());
    out.extend(queued.request.at.ticks().to_le_bytes());
    out.extend(queued.request.priority.to_le_bytes());
}

/// `CLOCK_BYTES` bytes. The channels stand by ascending cause; places without one are zero.
pub fn dump_clock(clock: &Clock, out: &mut Vec<u8>) {
    dump_head(clock, out);
    let mut channels: Vec<&HazardChannelState> = clock.channels.values().collect();
    channels.sort_by_key(|channel| channel.cause_id);
    let start = out.len();
    channels
        .iter()
        .for_each(|channel| dump_channel(channel, out));
    out.resize(start + CHANNELS * CHANNEL_BYTES, 0);
    dump_tail(clock, out);
}

/// Process, entity, policy, tie, scale, how many channels.
fn dump_head(clock: &SurvivalClock, out: &mut Vec<u8>) {
    out.extend(clock.process_id.to_le_bytes());
    out.push(u8::from(clock.entity.is_some()));
    let (index, generation) = clock.entity.map_or((0, 0), |e| (e.index, e.generation));
    out.extend(index.to_le_bytes());
    out.extend(generation.to_le_bytes());
    out.push(number_of(&POLICIES, &clock.policy));
    out.push(number_of(&TIES, &clock.tie_breaker));
    out.extend(clock.tick_scale.to_le_bytes());
    out.push(clock.channels.len() as u8);
}

fn dump_channel(channel: &HazardChannelState, out: &mut Vec<u8>) {
    let hazard = Hazard::of(&channel.hazard).expect("a hazard that is carried");
    out.extend(channel.cause_id.0.to_le_bytes());
    out.extend(channel.priority.to_le_bytes());
    hazard.encode(out);
    out.extend(channel.accumulated_hazard.to_le_bytes());
    out.extend(channel.target_threshold.to_le_bytes());
    out.extend(channel.interval_start_time.to_le_bytes());
}

/// Scheduled event, winner, active flag, last update time, the winner's piece.
fn dump_tail(clock: &Clock, out: &mut Vec<u8>) {
    out.push(u8::from(clock.scheduled_event_id.is_some()));
    let index = clock.scheduled_event_id.map_or(0, |id| id.index);
    out.extend(index.to_le_bytes());
    out.push(u8::from(clock.current_winner.is_some()));
    let (cause, time) = clock
        .current_winner
        .map_or((0, 0.0), |(c, time)| (c.0, time));
    out.extend(cause.to_le_bytes());
    out.extend(time.to_le_bytes());
    out.push(u8::from(clock.is_active));
    out.extend(clock.last_update_time.to_le_bytes());
    out.push(clock.current_winner.map_or(0, |_| clock.piece));
}
