//! Document 02, change 6: the piece in the answers of clock and sampler, and what becomes of the winner's piece.

mod common;

use common::{Engine, censored, constant, create, pause, remove, reschedule, resume};
use kairo_ecs_rng::CauseId;
use reference::answer::{ANSWER_BYTES, Answer};
use reference::command::{Command, Set};
use reference::dump::dump_state;
use reference::hazard::{CONSTANT, Hazard};
use reference::request::{Record, Request};
use reference::sampler::sample;

/// P of document 01's table. With threshold 4.0 it is due at 9.0, in piece 2; with 1.5 at 1.5, in piece 0.
fn p() -> Hazard {
    Hazard::piecewise(&[(2.0, 1.0), (5.0, 0.0)], 0.5)
}

fn curve(cause: u32, now: f64) -> Command {
    Command::Set(Set {
        cause,
        hazard: p(),
        now,
        ..Set::default()
    })
}

/// Cause 1 with P and threshold 4.0, queued in piece 2.
fn engine() -> Engine {
    let mut engine = Engine::open(&[4.0, 1.5, 4.0], 2000);
    engine.accepts(&[create(10.0), curve(1, 0.0)]);
    let answer = engine.give(reschedule(0.0));
    assert_eq!(answer, Answer::event(1, 9.0).with_ticks(90).with_piece(2));
    assert_eq!(engine.clock(0).piece, 2);
    engine
}

#[test]
fn bytes_of_an_answer() {
    let bytes = Answer::event(1, 9.0).with_piece(2).to_bytes();
    assert_eq!(bytes.len(), ANSWER_BYTES);
    assert_eq!(bytes[32..], [2, 0, 0, 0, 0, 0, 0, 0]);
    assert_eq!(Answer::event(1, 9.0).to_bytes()[32..], [0; 8]);
}

/// DELIVER gives it and clears winner and piece.
#[test]
fn delivered_and_cleared() {
    let mut engine = engine();
    let answer = engine.give(Command::Deliver);
    assert_eq!(answer, Answer::event(1, 9.0).with_ticks(90).with_piece(2));
    let clock = engine.clock(0);
    assert_eq!((clock.current_winner, clock.piece), (None, 0));
}

/// SET, REMOVE and PAUSE, and a RESCHEDULE or RESUME that finds no event, keep winner and piece; none of them answers it.
#[test]
fn kept_with_the_winner() {
    let queueing_none = [remove(1), reschedule(1.0)];
    let resuming_none = [pause(1.0), remove(1), resume(2.0)];
    for commands in [
        &[constant(1, 0.5, 1.0)][..],
        &[curve(2, 1.0)],
        &[remove(1)],
        &[pause(1.0)],
        &queueing_none,
        &resuming_none,
    ] {
        let mut engine = engine();
        for command in commands {
            let answer = engine.give(*command);
            assert_eq!((answer.number, answer.event, answer.piece), (0, false, 0));
        }
        let clock = engine.clock(0);
        assert_eq!(clock.current_winner, Some((CauseId(1), 9.0)));
        assert_eq!(clock.piece, 2, "{commands:?}");
    }
}

/// DELIVER repeats what was queued, also where the cause was set anew or removed since.
#[test]
fn repeats_what_was_queued() {
    for change in [constant(1, 0.5, 1.0), curve(1, 1.0), remove(1)] {
        let mut engine = engine();
        engine.accepts(&[change]);
        assert_eq!(engine.give(Command::Deliver).piece, 2);
    }
}

/// Another event brings its own piece: that of another cause, a censored one with 0, the first one again.
#[test]
fn another_event() {
    let mut engine = engine();
    engine.accepts(&[constant(2, 5.0, 0.0)]);
    let answer = engine.give(reschedule(0.0));
    assert_eq!((answer.cause, answer.piece), (2, 0));
    assert_eq!(engine.clock(0).piece, 0);
    engine.accepts(&[remove(2)]);
    assert_eq!(engine.give(reschedule(0.0)).piece, 2);
    let answer = engine.give(censored(0.0, 3.0));
    assert_eq!((answer.censored, answer.piece), (true, 0));
    assert_eq!(engine.clock(0).piece, 0);
    assert_eq!(engine.give(censored(0.0, 9.0)).piece, 2);
}

/// Inverted from age 0 for what is left: paused at 1.0 there is 3.0 left, due in piece 2; paused at 6.0, 1.5 left, due in piece 0.
#[test]
fn what_is_left_of_the_threshold() {
    for (paused, delta, piece) in [(1.0, 7.0, 2), (6.0, 1.5, 0)] {
        let mut engine = engine();
        engine.accepts(&[pause(paused)]);
        let answer = engine.give(resume(16.0));
        assert_eq!((answer.delta, answer.piece), (delta, piece));
    }
}

/// The threshold is reached: piece 0, wherever the age lies.
#[test]
fn threshold_reached() {
    for paused in [9.0, 20.0] {
        let mut engine = engine();
        engine.accepts(&[pause(paused)]);
        let answer = engine.give(resume(paused));
        assert_eq!((answer.delta, answer.piece), (0.0, 0));
        assert_eq!(engine.clock(0).piece, 0);
    }
}

/// UNDO gives the piece of the state before, whatever took it away: a delivery, an event of another cause, a censored one.
#[test]
fn given_back_by_undo() {
    let mut with_other = engine();
    with_other.accepts(&[constant(2, 5.0, 0.0)]);
    let before = dump_state(&with_other.state);
    for command in [Command::Deliver, reschedule(0.0), censored(0.0, 3.0)] {
        with_other.accepts(&[command]);
        assert_eq!(with_other.clock(0).piece, 0);
        assert_eq!(with_other.give(Command::Undo).to_bytes(), [0; ANSWER_BYTES]);
        assert_eq!(dump_state(&with_other.state), before);
        assert_eq!(with_other.clock(0).piece, 2);
    }
    with_other.accepts(&[Command::Undo, Command::Undo]);
    assert_eq!(with_other.clock(0).piece, 0);
}

/// Another piece is another state, also beside a censored winner.
#[test]
fn compared_by_13() {
    for piece in [0, 1, 3, 255] {
        let mut engine = engine();
        engine.clock(0).piece = piece;
        assert_eq!(engine.number(Command::Undo), 13);
    }
    let mut engine = engine();
    engine.accepts(&[censored(0.0, 3.0)]);
    engine.clock(0).piece = 1;
    assert_eq!(engine.number(Command::Undo), 13);
}

/// A state handed in: any piece passes state validation, and DELIVER answers it; 0 for a censored event, whatever the winner holds.
#[test]
fn handed_in() {
    for piece in [0, 1, 7, 9, 255] {
        let mut uncensored = engine();
        uncensored.clock(0).piece = piece;
        assert_eq!(uncensored.give(Command::Deliver).piece, piece);
        assert_eq!(uncensored.clock(0).piece, 0);
        let mut other = engine();
        other.accepts(&[censored(0.0, 3.0)]);
        other.clock(0).piece = piece;
        let answer = other.give(Command::Deliver);
        assert_eq!((answer.censored, answer.piece), (true, 0));
        assert_eq!(other.clock(0).piece, 0);
    }
}

/// The sampler's answer to records (cause, priority, hazard), each with the threshold 2.0.
fn sampled(tie: u8, age: f64, records: &[(u32, u32, Hazard)]) -> Answer {
    let mut request = Request {
        n: records.len() as u8,
        tie,
        age,
        ..Request::default()
    };
    for (place, (cause, priority, hazard)) in request.records.iter_mut().zip(records) {
        *place = Record {
            cause: *cause,
            priority: *priority,
            hazard: *hazard,
        };
    }
    let thresholds = 2.0f64.to_le_bytes().repeat(records.len());
    sample(&request, &thresholds, &mut 0)
}

/// Curves with a wait of 4.0 from age 0 for the threshold 2.0, in pieces 0, 1 and 2.
fn curves() -> [Hazard; 3] {
    [
        Hazard::piecewise(&[(4.0, 0.5)], 9.0),
        Hazard::piecewise(&[(2.0, 0.5), (5.0, 0.5)], 0.0),
        Hazard::piecewise(&[(1.0, 0.5), (3.0, 0.5)], 0.5),
    ]
}

#[test]
fn the_samplers_winner() {
    let [first, second, third] = curves();
    let list = [(3, 1, first), (7, 9, second), (5, 4, third)];
    for (tie, cause, piece) in [(0, 3, 0), (1, 7, 1), (2, 7, 1)] {
        let expected = Answer::event(cause, 4.0).with_piece(piece);
        assert_eq!(sampled(tie, 0.0, &list), expected);
    }
}

/// One cause three times: the first of the list, under tie 2 the one with the highest priority.
#[test]
fn a_cause_more_than_once() {
    let [first, second, third] = curves();
    let list = [(4, 1, third), (4, 9, second), (4, 9, first)];
    for (tie, piece) in [(0, 2), (1, 2), (2, 1)] {
        let expected = Answer::event(4, 4.0).with_piece(piece);
        assert_eq!(sampled(tie, 0.0, &list), expected);
    }
    // an earlier one further back in the list wins, with its own piece
    let sooner = Hazard::piecewise(&[(1.0, 0.0)], 1.0);
    let list = [(4, 9, second), (4, 1, sooner)];
    assert_eq!(sampled(2, 0.0, &list), Answer::event(4, 3.0).with_piece(1));
}

/// From its age: P from 2.0 and from 5.0 is due in the trailing piece, from 0 in piece 0.
#[test]
fn the_samplers_age() {
    let waited = [(0.0, 2.0, 0), (2.0, 7.0, 2), (5.0, 4.0, 2), (6.0, 4.0, 2)];
    for (age, delta, piece) in waited {
        let expected = Answer::event(1, delta).with_piece(piece);
        assert_eq!(sampled(0, age, &[(1, 0, p())]), expected);
    }
    let constant = Hazard::single_rate(CONSTANT, 0.5);
    assert_eq!(sampled(0, 6.0, &[(1, 0, constant)]).piece, 0);
}
