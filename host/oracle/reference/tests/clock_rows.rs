//! Rows 8 to 12 of document 01's table, and its five errors to shut out.

mod common;

use common::{
    Engine, censored, constant, constant_on, create, create_on, pause, reschedule, reschedule_on,
    resume,
};
use reference::command::Command;
use reference::fields::LIMIT;
use std::cmp::Reverse;

/// The ticks of a time: that of a censored event without a channel.
fn ticks(time: f64, scale: f64) -> u128 {
    let mut engine = Engine::open(&[], 100);
    engine.accepts(&[create(scale)]);
    let answer = engine.give(censored(0.0, time));
    assert!(answer.event && answer.censored && answer.delta == time);
    answer.ticks()
}

/// Row 9: the engine after CREATE, SET and RESCHEDULE.
fn row_9() -> Engine {
    let mut engine = Engine::open(&[2.0, 1.0], 1000);
    engine.accepts(&[create(10.0), constant(1, 0.5, 0.0)]);
    let answer = engine.give(reschedule(0.0)).to_bytes();
    assert_eq!(answer[..8], [0, 1, 0, 0, 1, 0, 0, 0]);
    assert_eq!(answer[8..16], [0, 0, 0, 0, 0, 0, 0x10, 0x40]);
    assert_eq!(answer[16..24], [0x28, 0, 0, 0, 0, 0, 0, 0]);
    assert_eq!(answer[24..], [0; 16]);
    engine
}

#[test]
fn row_8_ticks() {
    assert_eq!(ticks(0.5, 1.0), 1);
    assert_eq!(ticks(2.5, 1.0), 3);
    assert_eq!(ticks(0.5f64.next_down(), 1.0), 0);
    assert_eq!(ticks(LIMIT, 16_777_216.0), 1 << 64);
}

#[test]
fn ticks_from_2_to_the_128_on() {
    let mut engine = Engine::open(&[2.0], 1000);
    engine.accepts(&[create(1.0), constant(1, 1e-300, 0.0)]);
    assert_eq!(engine.give(reschedule(0.0)).ticks(), u128::MAX);
    assert_eq!(engine.give(Command::Deliver).ticks(), u128::MAX);
}

#[test]
fn row_9_reschedule() {
    let engine = row_9();
    assert_eq!(engine.state.scheduler.queue[0].order(), (40, Reverse(0), 0));
}

#[test]
fn row_10_pause_resume_and_two_undos() {
    let mut engine = row_9();
    let paused = engine.give(pause(1.0));
    assert!(paused.withdrawn && !paused.event);
    assert_eq!(engine.accumulated(1), 0.5);
    let resumed = engine.give(resume(3.0));
    assert_eq!((resumed.delta, resumed.ticks()), (3.0, 60));
    engine.accepts(&[Command::Undo, Command::Undo]);
    assert_eq!(engine.state.scheduler.queue[0].order(), (40, Reverse(0), 0));
    assert_eq!(engine.accumulated(1), 0.0);
}

#[test]
fn row_11_threshold_reached() {
    let mut engine = row_9();
    engine.accepts(&[constant(1, 0.5, 4.0)]);
    assert_eq!((engine.threshold(1), engine.accumulated(1)), (1.0, 0.0));
    assert_eq!(engine.state.position, 2);
}

#[test]
fn row_12_censor_time_equal_to_the_event() {
    for (censor, is_censored) in [(4.0, false), (4.0f64.next_down(), true)] {
        let mut engine = row_9();
        let answer = engine.give(censored(0.0, censor));
        assert_eq!((answer.event, answer.censored), (true, is_censored));
        assert!(answer.withdrawn);
    }
}

/// Adding 0.5 and truncating gives 1 for the float just below 0.5.
#[test]
fn error_1_ticks_by_adding_half() {
    let time = 0.5f64.next_down();
    assert_eq!((time + 0.5) as u128, 1);
    assert_eq!(ticks(time, 1.0), 0);
}

#[test]
fn error_2_undo_that_leaves_the_draw_position() {
    let mut engine = Engine::open(&[2.0, 1.0], 1000);
    engine.accepts(&[create(10.0), constant(1, 0.5, 0.0), Command::Undo]);
    assert_eq!(engine.state.position, 0);
    engine.accepts(&[constant(1, 0.5, 0.0)]);
    assert_eq!(engine.threshold(1), 2.0);
}

/// After the undo, another clock's request gets number 0.
#[test]
fn error_3_queue_number_not_given_back() {
    let mut engine = Engine::open(&[2.0, 2.0], 1000);
    engine.accepts(&[create_on(0, 10.0), constant_on(0, 10, 0.5, 0.0)]);
    engine.accepts(&[create_on(1, 10.0), constant_on(1, 11, 0.5, 0.0)]);
    engine.accepts(&[reschedule_on(0, 0.0, 0), Command::Undo]);
    assert_eq!(engine.state.scheduler.requests_made, 0);
    engine.accepts(&[reschedule_on(1, 0.0, 0), reschedule_on(0, 0.0, 0)]);
    let indices = [1, 0].map(|name| engine.clock(name).scheduled_event_id.map(|id| id.index));
    assert_eq!(indices, [Some(0), Some(1)]);
    assert_eq!(engine.give(Command::Deliver).cause, 11);
    assert_eq!(engine.give(Command::Deliver).cause, 10);
}

/// One unit of time has passed since row 9's RESCHEDULE; the wait is 4.0 again.
#[test]
fn error_4_settling_elapsed_hazard_in_reschedule() {
    let mut engine = row_9();
    let answer = engine.give(reschedule(1.0));
    assert_eq!((answer.delta, answer.ticks()), (4.0, 50));
    assert_eq!(engine.accumulated(1), 0.0);
}

/// Times 4.0 and 3.5 have the same ticks; the earlier time wins, not the lower cause.
#[test]
fn error_5_folding_times_into_ticks_before_ties() {
    let mut engine = Engine::open(&[2.0, 1.75], 1000);
    engine.accepts(&[create(0.01), constant(1, 0.5, 0.0), constant(2, 0.5, 0.0)]);
    let answer = engine.give(reschedule(0.0));
    assert_eq!((answer.cause, answer.delta, answer.ticks()), (2, 3.5, 0));
}
