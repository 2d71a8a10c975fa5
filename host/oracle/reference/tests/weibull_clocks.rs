//! Document 02, change 4: kind 4 in the sampler and in a clock.

mod common;

use common::{Engine, censored, create, pause, reschedule, resume};
use kairo_ecs_rng::{CauseId, Weibull};
use reference::answer::Answer;
use reference::command::{Command, Set};
use reference::hazard::{CONSTANT, Hazard, WEIBULL};
use reference::request::{Record, Request};
use reference::sampler::sample;

fn set(cause: u32, scale: f64, now: f64) -> Command {
    Command::Set(Set {
        cause,
        hazard: Hazard::single_rate(WEIBULL, scale),
        now,
        ..Set::default()
    })
}

fn sampled(age: f64, hazards: &[(u32, Hazard)], thresholds: &[f64]) -> Answer {
    let mut request = Request {
        n: hazards.len() as u8,
        age,
        ..Request::default()
    };
    for (record, (cause, hazard)) in request.records.iter_mut().zip(hazards.iter().copied()) {
        *record = Record {
            cause,
            priority: 0,
            hazard,
        };
    }
    let bytes: Vec<u8> = thresholds.iter().flat_map(|w| w.to_le_bytes()).collect();
    let mut position = 0;
    let answer = sample(&request, &bytes, &mut position);
    assert_eq!(position, hazards.len() as u64);
    answer
}

/// Each record has the wait of the threshold that it draws, whatever its place in the list.
#[test]
fn records_draw_by_cause() {
    let kind_4 = Hazard::single_rate(WEIBULL, 2.0);
    let constant = Hazard::single_rate(CONSTANT, 0.125);
    let list = [(7, kind_4), (3, constant), (5, kind_4)];
    // cause 3 waits 8, cause 5 from age 3: 2 * root of 2.25 + 4, less 3, cause 7: 2 * root of 2.25 + 1.75, less 3
    let answer = sampled(3.0, &list, &[1.0, 4.0, 1.75]);
    assert_eq!(answer, Answer::event(7, 1.0));
    let answer = sampled(3.0, &list, &[1.0, 1.75, 4.0]);
    assert_eq!(answer, Answer::event(5, 1.0));
    let answer = sampled(3.0, &list, &[0.0625, 4.0, 4.0]);
    assert_eq!(answer, Answer::event(3, 0.5));
}

/// A cause twice draws in the order of the list.
#[test]
fn a_cause_twice() {
    let list = [1.0, 2.0].map(|scale| (1, Hazard::single_rate(WEIBULL, scale)));
    assert_eq!(sampled(0.0, &list, &[9.0, 1.0]), Answer::event(1, 2.0));
    assert_eq!(sampled(0.0, &list, &[1.0, 9.0]), Answer::event(1, 1.0));
}

/// No event for a scale at most 0; at once for a threshold of 0.
#[test]
fn a_scale_at_most_zero() {
    for scale in [0.0, -0.0, -1.0] {
        let list = [(1, Hazard::single_rate(WEIBULL, scale))];
        assert_eq!(sampled(0.0, &list, &[1.0]), Answer::default());
        assert_eq!(sampled(0.0, &list, &[0.0]), Answer::event(1, 0.0));
    }
}

/// Scale 1, threshold 4: due at 2. Paused at 1 it has used up 1; resumed at 3 it waits for the root of 3.
#[test]
fn paused_and_resumed() {
    let mut engine = Engine::open(&[4.0], 1000);
    engine.accepts(&[create(10.0), set(1, 1.0, 0.0)]);
    let answer = engine.give(reschedule(0.0));
    assert_eq!((answer.cause, answer.delta, answer.ticks()), (1, 2.0, 20));
    engine.accepts(&[pause(1.0)]);
    assert_eq!(engine.accumulated(1), 1.0);
    let answer = engine.give(resume(3.0));
    assert_eq!(answer.delta, (3.0 + 3.0f64.sqrt()) - 3.0);
    let before = (engine.accumulated(1), engine.threshold(1));
    engine.accepts(&[Command::Deliver, Command::Undo]);
    assert_eq!((engine.accumulated(1), engine.threshold(1)), before);
}

/// SET settles by the old scale and keeps what is left of the threshold.
#[test]
fn set_again() {
    let mut engine = Engine::open(&[4.0], 1000);
    engine.accepts(&[create(1.0), set(1, 2.0, 0.0), set(1, -0.0, 3.0)]);
    assert_eq!(engine.accumulated(1), 2.25);
    assert!(!engine.give(reschedule(3.0)).event);
    assert_eq!(engine.state.position, 1);
}

/// Threshold 1e308 and accumulated -1e308, which only a state handed in can have: the sum is infinite and the channel no candidate.
#[test]
fn infinite_sum() {
    let mut engine = Engine::open(&[4.0], 1000);
    engine.accepts(&[create(1.0), set(1, 1.0, 0.0)]);
    let channel = engine.clock(0).channels.get_mut(&CauseId(1));
    let channel = channel.expect("the channel of cause 1");
    (channel.target_threshold, channel.accumulated_hazard) = (1e308, -1e308);
    let answer = engine.give(reschedule(0.0));
    assert_eq!((answer.number, answer.event), (0, false));
    assert!(engine.give(censored(0.0, 5.0)).censored);
}

/// What the sampler is given has the model's wait at its age and for its threshold.
#[test]
fn pieces_with_the_same_wait() {
    let numbers = [f64::from_bits(1), 1e-9, 0.3, 1.0, 3.0, 700.0, 1024.0];
    for scale in [
        -1.0,
        0.0,
        2.0f64.powi(-40),
        0.7,
        1.0,
        3.0,
        49.0,
        2.0f64.powi(40),
    ] {
        let weibull = Weibull { scale };
        for age in numbers.into_iter().chain([0.0, 2.0f64.powi(40)]) {
            for w in numbers.into_iter().chain([0.0, -0.0]) {
                let bits = |wait: Option<f64>| wait.map(f64::to_bits);
                let pieces = weibull.as_pieces(age, w);
                assert_eq!(
                    bits(pieces.invert_cumulative_hazard(age, w)),
                    bits(weibull.invert_cumulative_hazard(age, w)),
                    "scale {scale:e}, age {age:e}, w {w:e}"
                );
            }
        }
    }
}
