//! Refusals 12 and 13 of UNDO, and what it leaves in the journal.

mod common;

use common::{Engine, constant, constant_on, create, create_on, pause, reschedule, reschedule_on};
use reference::answer::ANSWER_BYTES;
use reference::clock::deliver;
use reference::command::{Command, DELIVER};
use reference::dump::dump_state;

fn engine() -> Engine {
    let mut engine = Engine::open(&[2.0, 1.0], 300);
    engine.accepts(&[create(10.0), constant(1, 0.5, 0.0), reschedule(0.0)]);
    engine
}

/// The number of an UNDO after a change that passes state validation.
fn number(change: impl Fn(&mut Engine)) -> u8 {
    let mut engine = engine();
    change(&mut engine);
    engine.number(Command::Undo)
}

#[test]
fn refused_by_12() {
    let mut engine = Engine::open(&[2.0], 300);
    assert_eq!(engine.number(Command::Undo), 12);
    engine.accepts(&[create(10.0), Command::Undo]);
    assert_eq!(engine.number(Command::Undo), 12);
    engine.state.position = 1;
    assert_eq!(engine.number(Command::Undo), 12);
}

#[test]
fn refused_by_13_for_another_state() {
    assert_eq!(number(|_| ()), 0);
    assert_eq!(number(|e| e.state.position = 2), 13);
    assert_eq!(number(|e| e.state.scheduler.requests_made = 2), 13);
    assert_eq!(number(|e| e.state.scheduler.queue.clear()), 13);
    assert_eq!(
        number(|e| e.state.scheduler.queue[0].request.priority = 1),
        13
    );
    assert_eq!(number(|e| e.clock(0).is_active = false), 13);
    assert_eq!(number(|e| e.clock(0).last_update_time = -0.0), 13);
    assert_eq!(number(|e| e.clock(0).process_id = 1), 13);
    assert_eq!(
        number(|e| e.state.clocks[5] = e.state.clocks[0].clone()),
        13
    );
}

/// The last command is replayed too: a state before it is another state.
#[test]
fn refused_by_13_for_the_state_before_the_last_command() {
    let mut engine = engine();
    let before = engine.state.clone();
    engine.accepts(&[pause(1.0)]);
    engine.state = reference::state::State {
        applied_length: engine.state.applied_length,
        ..before
    };
    assert_eq!(engine.number(Command::Undo), 13);
}

#[test]
fn refused_by_13_for_other_bytes() {
    assert_eq!(number(|e| e.journal[0] = 0), 13);
    assert_eq!(number(|e| e.journal[0] = 8), 13);
    assert_eq!(number(|e| e.journal[10] = 9), 13);
    assert_eq!(number(|e| e.journal[33] = 1), 13);
    assert_eq!(number(|e| e.journal[211] = 1), 13);
    assert_eq!(number(|e| e.journal[212] = 1), 0);
    assert_eq!(number(|e| e.state.applied_length = 211), 13);
    assert_eq!(number(|e| e.state.applied_length = 213), 13);
}

/// An UNDO among the applied bytes, also where taking it and the command before it off would give
/// the present state.
#[test]
fn refused_by_13_for_an_undo_among_the_applied_bytes() {
    let mut engine = engine();
    let commands = [reschedule(0.0).to_bytes(), vec![8]].concat();
    engine.journal[212..236].copy_from_slice(&commands);
    engine.state.applied_length = 236;
    assert_eq!(engine.number(Command::Undo), 13);
}

#[test]
fn refused_by_13_for_another_stream() {
    let other = |stream: &[f64]| {
        stream
            .iter()
            .flat_map(|w| w.to_le_bytes())
            .collect::<Vec<u8>>()
    };
    assert_eq!(number(|e| e.stream = other(&[2.0, 5.0])), 0);
    assert_eq!(number(|e| e.stream = other(&[1.0, 1.0])), 13);
    assert_eq!(number(|e| e.stream = other(&[f64::NAN, 1.0])), 13);
}

/// Clocks 0 and 1 have events at one tick, with these priorities; one was delivered before change 2 of document 02, when the lower
/// priority number came first. The number of an UNDO today.
fn undo_of_older_delivery(priorities: [i32; 2]) -> u8 {
    let mut engine = Engine::open(&[2.0, 2.0], 500);
    for (clock, priority) in (0..).zip(priorities) {
        let set = constant_on(clock, 1, 0.5, 0.0);
        engine.accepts(&[
            create_on(clock, 10.0),
            set,
            reschedule_on(clock, 0.0, priority),
        ]);
    }
    let queue = engine.state.scheduler.queue.iter();
    let older = queue.min_by_key(|queued| (queued.request.priority, queued.id.index));
    let older = *older.expect("two requests are queued");
    assert!(engine.state.scheduler.cancel(older.id));
    deliver(engine.clock(usize::from(older.clock)), &older);
    engine.journal[engine.state.applied_length as usize] = DELIVER;
    engine.state.applied_length += 1;
    engine.number(Command::Undo)
}

#[test]
fn refused_by_13_for_a_delivery_by_the_older_rule() {
    assert_eq!(undo_of_older_delivery([0, 1]), 13);
    assert_eq!(undo_of_older_delivery([1, 0]), 13);
    assert_eq!(undo_of_older_delivery([-1, 0]), 13);
    assert_eq!(undo_of_older_delivery([i32::MIN, i32::MAX]), 13);
    // both rules deliver the same event
    assert_eq!(undo_of_older_delivery([0, 0]), 0);
}

/// Zero over the bytes of the last command; other bytes stay, those past the applied ones too.
#[test]
fn bytes_of_the_journal_after_undo() {
    let mut engine = engine();
    let whole = engine.journal.clone();
    engine.journal[250] = 7;
    assert_eq!(engine.give(Command::Undo).to_bytes(), [0; ANSWER_BYTES]);
    assert_eq!(engine.journal[..189], whole[..189]);
    assert_eq!(engine.journal[189..250], [0; 61]);
    assert_eq!(engine.journal[250], 7);
    let mut without = Engine::open(&[2.0, 1.0], 300);
    without.accepts(&[create(10.0), constant(1, 0.5, 0.0)]);
    assert_eq!(dump_state(&engine.state), dump_state(&without.state));
}
