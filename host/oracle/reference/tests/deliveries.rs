//! The order of deliveries: fewest ticks, then higher priority number, then lower index.

mod common;

use common::{Engine, constant_on, create_on, reschedule_on};
use reference::command::Command;

/// One clock for each request (time, priority), with the cause 100 + its number; the causes in the
/// order of delivery.
fn delivered(requests: &[(f64, i32)]) -> Vec<u32> {
    let mut engine = Engine::open(&[1.0; 16], 4000);
    for (clock, (time, _)) in (0..).zip(requests) {
        let cause = 100 + u32::from(clock);
        let set = constant_on(clock, cause, 1.0 / time, 0.0);
        engine.accepts(&[create_on(clock, 1.0), set]);
    }
    for (clock, (_, priority)) in (0..).zip(requests) {
        engine.accepts(&[reschedule_on(clock, 0.0, *priority)]);
    }
    let causes = requests.iter().map(|_| engine.give(Command::Deliver).cause);
    let causes = causes.collect();
    assert_eq!(engine.number(Command::Deliver), 11);
    causes
}

#[test]
fn by_ticks() {
    assert_eq!(delivered(&[(8.0, 9), (2.0, -5), (4.0, 0)]), [101, 102, 100]);
}

#[test]
fn by_priority_where_ticks_are_equal() {
    let requests = [
        (4.0, 1),
        (4.0, i32::MAX),
        (4.0, -1),
        (4.0, i32::MIN),
        (4.0, 0),
    ];
    assert_eq!(delivered(&requests), [101, 100, 104, 102, 103]);
}

#[test]
fn by_index_where_both_are_equal() {
    assert_eq!(delivered(&[(4.0, 3); 16]), (100..116).collect::<Vec<u32>>());
}

/// Rounded to whole ticks first: 3.75 and 4.0 are equal, and the priority decides.
#[test]
fn times_that_differ_may_have_the_same_ticks() {
    assert_eq!(delivered(&[(3.75, 0), (4.0, 1), (8.0, 2)]), [101, 100, 102]);
}

/// A request that is made again is the last of its equals.
#[test]
fn a_request_made_again_gets_a_new_index() {
    let mut engine = Engine::open(&[1.0; 2], 4000);
    for clock in 0..2 {
        let set = constant_on(clock, u32::from(clock), 0.25, 0.0);
        engine.accepts(&[create_on(clock, 1.0), set, reschedule_on(clock, 0.0, 0)]);
    }
    assert!(engine.give(reschedule_on(0, 0.0, 0)).withdrawn);
    assert_eq!(engine.give(Command::Deliver).cause, 1);
    assert_eq!(engine.give(Command::Deliver).cause, 0);
}
