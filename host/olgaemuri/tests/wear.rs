//! Wear that grows in a straight line (kind 4, change 4 of document 02): waits, what is used up, scales at most 0, undo.

mod common;

use common::{Random, create, reschedule, set, set_wear};
use olgaemuri::{Answer, Command, Engine, Hazard, Policy};

/// The cause that wears.
const RAILS: u32 = 1;

/// An engine with one press whose rails have drawn this threshold at 0.
fn press(threshold: f64, scale: f64) -> Engine {
    let mut engine = Engine::new([threshold, 1.0]);
    for command in [create(Policy::RetainResidual), set_wear(RAILS, scale, 0.0)] {
        assert!(engine.execute(&command).is_accepted(), "{command}");
    }
    engine
}

/// What the rails have used up.
fn used(engine: &Engine) -> f64 {
    let press = engine.clock(0).expect("the press");
    press.causes().next().expect("the rails").accumulated
}

/// The delta of an event: the clock rounds now + wait, and delta is what that leaves.
fn after(now: f64, wait: f64) -> f64 {
    (now + wait) - now
}

/// A scale from 2^-40 to 2^40, of any size.
fn any_scale(random: &mut Random) -> f64 {
    let digits = 1.0 + random.below(1 << 32) as f64 / 2f64.powi(32);
    (digits * 2f64.powi(random.below(80) as i32 - 40)).min(2f64.powi(40))
}

/// A threshold above 0 and at most 1,024, of any size.
fn any_threshold(random: &mut Random) -> f64 {
    let digits = 1.0 + random.below(1 << 32) as f64 / 2f64.powi(32);
    digits * 2f64.powi(random.below(60) as i32 - 51)
}

#[test]
fn the_wait_is_the_scale_times_the_root() {
    let mut random = Random(20261117);
    for _ in 0..20_000 {
        let (scale, threshold) = (any_scale(&mut random), any_threshold(&mut random));
        let answer = press(threshold, scale).execute(&reschedule(0.0));
        let expected = scale * threshold.sqrt();
        assert_eq!(
            (answer.cause, answer.delta.to_bits()),
            (RAILS, expected.to_bits()),
            "{scale} {threshold}"
        );
    }
}

#[test]
fn what_is_used_up_is_the_square_of_the_age_over_the_scale() {
    let mut random = Random(20261118);
    let ages = (0..5_000).map(|_| (any_scale(&mut random), any_threshold(&mut random)));
    let mut tried = 0;
    for (scale, age) in ages.chain([(3.0, 5.0), (400.0, 200.0)]) {
        let quotient = age / scale;
        if quotient * quotient >= 1024.0 {
            continue;
        }
        tried += 1;
        let mut engine = press(1024.0, scale);
        // a second SET counts what was used up and keeps the threshold
        assert!(engine.execute(&set_wear(RAILS, scale, age)).is_accepted());
        let expected = quotient * quotient;
        assert_eq!(used(&engine).to_bits(), expected.to_bits(), "{scale} {age}");
        assert_eq!(engine.draw_position(), 1);
    }
    assert!(tried > 1_000, "{tried}");
}

/// The threshold is what is left of it after a pause; the age begins again.
#[test]
fn after_a_pause() {
    let mut engine = press(4.0, 1.0);
    assert_eq!(engine.execute(&reschedule(0.0)).delta, 2.0);
    assert!(
        engine
            .execute(&Command::Pause { clock: 0, now: 1.0 })
            .withdrawn
    );
    assert_eq!(used(&engine), 1.0);
    let resumed = engine.execute(&Command::Resume {
        clock: 0,
        now: 3.0,
        censor: None,
        priority: 0,
    });
    assert_eq!(resumed.delta, after(3.0, 3f64.sqrt()));
}

#[test]
fn a_scale_at_most_0_never_fails() {
    for scale in [0.0, -0.0, -5e-324, -1.0, -2f64.powi(40)] {
        let mut engine = press(1.0, scale);
        assert_eq!(engine.execute(&reschedule(0.0)), Answer::default());
        engine.execute(&set_wear(RAILS, scale, 1e6));
        assert_eq!(used(&engine).to_bits(), 0, "{scale}");
        // a threshold of 0 is due all the same
        assert!(press(0.0, scale).execute(&reschedule(0.0)).event);
    }
}

#[test]
fn an_engine_keeps_the_scale_bit_for_bit() {
    for scale in [400.0, 0.0, -0.0, -7.5, 2f64.powi(-40), 2f64.powi(40)] {
        let engine = press(1.0, scale);
        let rails = engine.clock(0).expect("the press").causes().next();
        let hazard = rails.expect("the rails").hazard;
        assert!(matches!(hazard, Hazard::Weibull(_)), "{hazard:?}");
        assert_eq!(hazard.first().to_bits(), scale.to_bits());
    }
}

#[test]
fn undo_gives_the_wear_back() {
    let mut engine = press(1.0, 400.0);
    engine.execute(&set(2, 0.001, 0.0));
    let before = engine.execute(&reschedule(0.0));
    assert_eq!(
        (before.cause, before.delta, before.ticks),
        (RAILS, 400.0, 4000)
    );
    engine.execute(&set_wear(RAILS, 100.0, 200.0));
    let edited = engine.execute(&reschedule(200.0));
    let wait = 100.0 * 0.75f64.sqrt();
    assert_eq!((edited.cause, edited.delta), (RAILS, after(200.0, wait)));
    assert_eq!(engine.undo_last(2), 2);
    assert_eq!((used(&engine), engine.queue()[0].ticks), (0.0, 4000));
}

#[test]
fn as_a_line() {
    let line = "set machine=0 cause=1 priority=0 now=0 hazard=weibull scale=400";
    let command: Command = line.parse().expect("a good line");
    assert_eq!(command, set_wear(RAILS, 400.0, 0.0));
    assert_eq!(command.to_string(), line);
}
