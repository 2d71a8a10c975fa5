//! A whole state as a record of fixed length, with a place for every field, from which `host/states` fills the rows of the engine.

use crate::choices::{POLICIES, TIES};
use crate::clock::{self, CHANNELS, Clock};
use crate::command::Create;
use crate::command_fields::CLOCKS;
use crate::dump::{CHANNEL_BYTES, CLOCK_BYTES, QUEUED_BYTES, dump_clock, dump_queued};
use crate::fields::Reader;
use crate::hazard::{HAZARD_BYTES, Hazard, PAIRS, WEIBULL};
use crate::state::State;
use crate::validation::QUEUE;
use kairo_ecs_core::{Queued, Scheduler};
use kairo_ecs_des::{HazardChannelState, SurvivalClock};
use kairo_ecs_rng::CauseId;
use kairo_ecs_types::{EntityId, EventId, EventKind, ScheduleRequest, SimTime};

/// Draw position, applied length, request counter, how many requests are queued.
pub const HEAD_BYTES: usize = 32;
/// Whether there is a clock, and its bytes.
pub const SLOT_BYTES: usize = 1 + CLOCK_BYTES;
pub const SLOTS_AT: usize = HEAD_BYTES + QUEUE * QUEUED_BYTES;
pub const STATE_BYTES: usize = SLOTS_AT + CLOCKS * SLOT_BYTES;

/// `STATE_BYTES` bytes of a state with at most sixteen requests and eight channels in a clock. Requests stand in the order
/// of the queue, unused places are zero, and an absent clock has the bytes of one that was created from zeros.
pub fn encode(state: &State) -> Vec<u8> {
    let queue = &state.scheduler.queue;
    let counts = [
        state.position,
        state.applied_length,
        state.scheduler.requests_made,
        queue.len() as u64,
    ];
    let mut out: Vec<u8> = counts.into_iter().flat_map(u64::to_le_bytes).collect();
    queue
        .iter()
        .for_each(|queued| dump_queued(queued, &mut out));
    out.resize(SLOTS_AT, 0);
    let empty = clock::create(&Create::default());
    for clock in &state.clocks {
        out.push(u8::from(clock.is_some()));
        dump_clock(clock.as_ref().unwrap_or(&empty), &mut out);
    }
    out
}

/// The state of a record. `None` for what the Rust's values cannot express: over eight channels or pairs, over sixteen
/// requests, causes that do not ascend. What stands beside a flag that is not set is dropped.
pub fn decode(record: &[u8]) -> Option<State> {
    let mut head = Reader(record);
    let (position, applied_length) = (head.u64(), head.u64());
    let mut scheduler = Scheduler::new(head.u64());
    let queued = usize::try_from(head.u64()).ok().filter(|n| *n <= QUEUE)?;
    scheduler.queue = (0..queued).map(|_| queued_from(&mut head)).collect();
    let mut clocks = std::array::from_fn(|_| None);
    for (clock, slot) in clocks.iter_mut().zip(record[SLOTS_AT..].chunks(SLOT_BYTES)) {
        if slot[0] == 1 {
            *clock = Some(clock_from(&slot[1..])?);
        }
    }
    Some(State {
        clocks,
        scheduler,
        position,
        applied_length,
    })
}

/// Entity and kind are the Rust's own and no part of document 01's state.
fn queued_from(reader: &mut Reader) -> Queued {
    let (clock, index) = (reader.u8(), reader.u64());
    let (low, high) = (u128::from(reader.u64()), u128::from(reader.u64()));
    Queued {
        clock,
        id: EventId::new(index, 0),
        request: ScheduleRequest {
            at: SimTime::from_ticks(high << 64 | low),
            priority: reader.i32(),
            entity: None,
            kind: EventKind::custom(0),
        },
    }
}

fn clock_from(bytes: &[u8]) -> Option<Clock> {
    let mut reader = Reader(bytes);
    let process_id = reader.u64();
    let entity = flagged(&mut reader, |r| EntityId::new(r.u64(), r.u32()));
    let policy = *POLICIES.get(usize::from(reader.u8()))?;
    let tie_breaker = *TIES.get(usize::from(reader.u8()))?;
    let mut clock = SurvivalClock::new(process_id, entity, policy, tie_breaker, 1.0);
    clock.tick_scale = reader.f64();
    let count = usize::from(reader.u8());
    let (channels, rest) = reader.0.split_at(CHANNELS * CHANNEL_BYTES);
    let mut tail = Reader(rest);
    fill_channels(&mut clock, count, channels)?;
    clock.scheduled_event_id = flagged(&mut tail, |r| EventId::new(r.u64(), 0));
    clock.current_winner = flagged(&mut tail, |r| (CauseId(r.u32()), r.f64()));
    clock.is_active = tail.u8() == 1;
    clock.last_update_time = tail.f64();
    let piece = clock.current_winner.map_or(0, |_| tail.u8());
    Some(Clock::new(clock, piece))
}

/// A flag, then the fields that it speaks of, which are read in either case.
fn flagged<T>(reader: &mut Reader, read: impl Fn(&mut Reader) -> T) -> Option<T> {
    let present = reader.u8() == 1;
    let value = read(reader);
    present.then_some(value)
}

fn fill_channels(clock: &mut SurvivalClock, count: usize, bytes: &[u8]) -> Option<()> {
    let used = bytes.chunks(CHANNEL_BYTES).take(count);
    let channels = used.map(channel_from).collect::<Option<Vec<_>>>()?;
    let ascend = channels.is_sorted_by(|a, b| a.cause_id < b.cause_id);
    let all = channels.into_iter().map(|c| (c.cause_id, c));
    clock.channels = all.collect();
    (ascend && count <= CHANNELS).then_some(())
}

fn channel_from(bytes: &[u8]) -> Option<HazardChannelState> {
    let mut reader = Reader(bytes);
    let (cause_id, priority) = (CauseId(reader.u32()), reader.u32());
    let hazard = Hazard::decode(reader.0);
    let mut rest = Reader(&reader.0[HAZARD_BYTES..]);
    let fits = hazard.kind <= WEIBULL && usize::from(hazard.count) <= PAIRS;
    fits.then(|| HazardChannelState {
        cause_id,
        priority,
        hazard: hazard.build(),
        accumulated_hazard: rest.f64(),
        target_threshold: rest.f64(),
        interval_start_time: rest.f64(),
    })
}
