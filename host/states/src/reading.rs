//! What any rows are read as: what the engine has to make of them, told by the oracle.

use crate::layout::Layout;
use crate::rows::Rows;
use reference::clock::CHANNELS;
use reference::dump::CHANNEL_BYTES;
use reference::hazard::Hazard;
use reference::record::{SLOT_BYTES, SLOTS_AT, decode, encode};
use reference::state::State;

pub enum Reading {
    /// No coded state: refusal 1.
    Uncoded,
    /// A state that the Rust's values cannot express: refusal 1.
    Inexpressible,
    /// A state of the Rust.
    Exact(State),
    /// A state of the Rust, beside numbers that it does not hold: those of unused places, and those beside a flag that is not set.
    Beside(State),
}

pub fn read(layout: &Layout, rows: &Rows) -> Reading {
    if !rows.is_coded(layout) {
        return Reading::Uncoded;
    }
    let record = rows.record(layout);
    let state = match decode(&record) {
        Some(state) if pairs_valid(&record) => state,
        _ => return Reading::Inexpressible,
    };
    if Rows::of(layout, &encode(&state)).is_same(rows) {
        Reading::Exact(state)
    } else {
        Reading::Beside(state)
    }
}

/// The Rust's hazards hold neither a count nor pairs where these are unused; refusal 6 asks for zero there.
fn pairs_valid(record: &[u8]) -> bool {
    let slots = record[SLOTS_AT..].chunks(SLOT_BYTES);
    slots.filter(|slot| slot[0] == 1).all(|slot| {
        let (count, channels) = (usize::from(slot[32]), &slot[33..]);
        let used = channels.chunks(CHANNEL_BYTES).take(count.min(CHANNELS));
        used.map(|channel| Hazard::decode(&channel[8..]))
            .all(|hazard| hazard.pairs_valid())
    })
}
