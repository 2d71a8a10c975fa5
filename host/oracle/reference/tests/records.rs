//! A state's record: its layout, the way back, and what the Rust's values cannot express.

mod common;

use common::{Engine, constant, create, reschedule};
use reference::dump::{CHANNEL_BYTES, dump_state};
use reference::record::{SLOT_BYTES, SLOTS_AT, STATE_BYTES, decode, encode};

/// Clock 0 with causes 1 and 2, queued as request 0.
fn engine() -> Engine {
    let mut engine = Engine::open(&[2.0, 1.0], 400);
    let causes = [constant(1, 0.5, 0.0), constant(2, 0.25, 0.0)];
    engine.accepts(&[create(10.0), causes[0], causes[1], reschedule(0.0)]);
    engine
}

#[test]
fn layout_of_a_record() {
    let record = encode(&engine().state);
    assert_eq!((record.len(), STATE_BYTES, SLOTS_AT), (23296, 23296, 496));
    let counts = [2u64, 368, 1, 1].map(u64::to_le_bytes).concat();
    assert_eq!(record[..32], counts);
    assert_eq!(
        record[32..49],
        [&[0; 9][..], &[40, 0, 0, 0, 0, 0, 0, 0]].concat()
    );
    assert_eq!(record[61..SLOTS_AT], [0; 435]);
    let clock = &record[SLOTS_AT..][..SLOT_BYTES];
    assert_eq!((clock[0], clock[32], clock[33]), (1, 2, 1));
    assert_eq!(clock[33 + CHANNEL_BYTES], 2);
    assert_eq!(clock[SLOT_BYTES - 1], 0);
}

/// The winner's piece is the last byte of its clock; without a winner it is dropped.
#[test]
fn piece_of_a_winner() {
    let mut engine = engine();
    engine.clock(0).piece = 7;
    let mut record = encode(&engine.state);
    assert_eq!(record[SLOTS_AT..][SLOT_BYTES - 1], 7);
    let piece = |record: &[u8]| decode(record).and_then(|s| s.clocks[0].as_ref().map(|c| c.piece));
    assert_eq!(piece(&record), Some(7));
    let has_winner = SLOTS_AT + 1 + 1401;
    assert_eq!(record[has_winner], 1);
    record[has_winner] = 0;
    assert_eq!(piece(&record), Some(0));
}

/// An absent clock is 0 and a clock of zeros, whose scale CREATE makes 1.0.
#[test]
fn layout_of_an_absent_clock() {
    let record = encode(&engine().state);
    let clock = &record[SLOTS_AT + SLOT_BYTES..][..SLOT_BYTES];
    assert_eq!(clock[..24], [0; 24]);
    assert_eq!(clock[24..32], 1.0f64.to_le_bytes());
    assert_eq!(clock[32..], [0; SLOT_BYTES - 32]);
}

#[test]
fn there_and_back() {
    let state = engine().state;
    let back = decode(&encode(&state)).expect("a state");
    assert_eq!(dump_state(&back), dump_state(&state));
}

#[test]
fn what_the_rust_cannot_express() {
    let record = encode(&engine().state);
    let changed = |at: usize, byte: u8| {
        let mut other = record.clone();
        other[at] = byte;
        decode(&other).is_none()
    };
    let clock = SLOTS_AT + 1;
    assert!(!changed(24, 16) && changed(24, 17), "queue length");
    assert!(changed(clock + 21, 2), "policy");
    assert!(changed(clock + 22, 3), "tie");
    assert!(changed(clock + 31, 9), "channel count");
    assert!(changed(clock + 32 + CHANNEL_BYTES, 1), "a cause twice");
    assert!(
        changed(clock + 32 + CHANNEL_BYTES, 0),
        "causes that descend"
    );
    assert!(
        !changed(clock + 32 + 8, 4) && changed(clock + 32 + 8, 5),
        "kind"
    );
    assert!(changed(clock + 32 + 17, 9), "pair count");
}
