//! What hazard_clock.rs does where a reader of document 01 may expect otherwise.

mod common;

use common::{Engine, censored, constant, create, pause, remove, reschedule, resume};
use reference::command::Command;
use reference::dump::dump_state;

/// Constant 0.5 with threshold 2.0, queued at 0 for 4.0.
fn queued() -> Engine {
    let mut engine = Engine::open(&[2.0, 1.0], 1000);
    engine.accepts(&[create(10.0), constant(1, 0.5, 0.0), reschedule(0.0)]);
    engine
}

#[test]
fn pause_of_an_inactive_clock_changes_only_the_journal() {
    let mut engine = Engine::open(&[2.0], 1000);
    engine.accepts(&[create(10.0), constant(1, 0.5, 0.0)]);
    let mut before = engine.state.clone();
    engine.accepts(&[pause(1.0)]);
    before.applied_length += 10;
    assert_eq!(dump_state(&engine.state), dump_state(&before));
}

#[test]
fn set_on_a_paused_clock_counts_the_pause_as_elapsed() {
    let mut engine = queued();
    engine.accepts(&[pause(1.0), constant(1, 0.5, 2.0)]);
    assert_eq!(engine.accumulated(1), 1.0);
}

#[test]
fn resume_without_pause_drops_the_elapsed_hazard() {
    let mut engine = queued();
    let answer = engine.give(resume(2.0));
    assert_eq!((answer.withdrawn, answer.delta), (true, 4.0));
    assert_eq!(engine.accumulated(1), 0.0);
}

#[test]
fn deliver_settles_nothing_and_draws_nothing() {
    let mut engine = queued();
    let answer = engine.give(Command::Deliver);
    assert_eq!((answer.cause, answer.delta, answer.ticks()), (1, 4.0, 40));
    assert_eq!((engine.accumulated(1), engine.state.position), (0.0, 1));
    assert!(!engine.clock(0).is_active);
}

#[test]
fn removed_winner_is_still_delivered() {
    let mut engine = queued();
    assert!(!engine.give(remove(1)).withdrawn);
    assert_eq!(engine.give(Command::Deliver).cause, 1);
}

#[test]
fn reschedule_without_an_event_keeps_winner_and_active_flag() {
    let mut engine = queued();
    engine.accepts(&[remove(1)]);
    let answer = engine.give(reschedule(1.0));
    assert_eq!((answer.event, answer.withdrawn), (false, true));
    let clock = engine.clock(0);
    assert!(clock.is_active && clock.current_winner.is_some());
    assert_eq!(clock.last_update_time, 1.0);
    engine.accepts(&[constant(1, 0.5, 1.0), pause(2.0)]);
    assert_eq!(engine.accumulated(1), 0.5);
}

#[test]
fn censor_before_now() {
    let mut engine = queued();
    let answer = engine.give(censored(2.0, 1.0));
    assert_eq!(
        (answer.censored, answer.delta, answer.ticks()),
        (true, 0.0, 20)
    );
    engine.accepts(&[remove(1)]);
    assert!(!engine.give(censored(2.0, 1.0)).event);
    assert!(engine.give(censored(2.0, 2.0)).censored);
}

#[test]
fn delivered_delta_may_differ_from_the_queued_one_in_the_last_bit() {
    let mut engine = Engine::open(&[], 1000);
    engine.accepts(&[create(1.0)]);
    let queued = engine.give(censored(f64::EPSILON / 2.0, 1.0 + f64::EPSILON));
    assert_eq!(queued.delta, 1.0);
    assert_eq!(engine.give(Command::Deliver).delta, 1.0f64.next_down());
}

/// The accumulated hazard begins as +0.0, and +0.0 plus either zero is +0.0: the sign that
/// `f64::max(-0.0, 0.0)` leaves open never shows in a clock.
#[test]
fn rate_of_negative_zero_accumulates_positive_zero() {
    let mut engine = Engine::open(&[2.0], 1000);
    engine.accepts(&[
        create(1.0),
        constant(1, -0.0, 0.0),
        censored(0.0, 9.0),
        pause(1.0),
    ]);
    assert_eq!(engine.accumulated(1).to_bits(), 0);
    assert!(!engine.give(reschedule(1.0)).event);
}
