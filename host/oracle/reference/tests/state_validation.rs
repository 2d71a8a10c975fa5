//! Refusal 1 of a state handed in, condition by condition, and what passes it.

mod common;

use common::{Engine, constant, create, pause, remove, reschedule};
use kairo_ecs_core::Queued;
use kairo_ecs_des::HazardChannelState;
use kairo_ecs_rng::{CauseId, HazardRate, UnchangedHazard, Weibull};
use kairo_ecs_types::EventId;
use reference::command::Command;
use reference::fields::LIMIT;
use reference::hazard::SMALLEST_SCALE;
use reference::refusal::Refusal;
use reference::state::applied;
use reference::validation::validate;

/// Clock 0 with cause 1, queued as request 0; 212 bytes are applied.
fn engine() -> Engine {
    let mut engine = Engine::open(&[2.0, 1.0], 300);
    engine.accepts(&[create(10.0), constant(1, 0.5, 0.0), reschedule(0.0)]);
    engine
}

fn channel(engine: &mut Engine) -> &mut HazardChannelState {
    let channel = engine.clock(0).channels.get_mut(&CauseId(1));
    channel.expect("the channel of cause 1")
}

/// Any input is refused by 1, bytes that are no command among them.
fn refused(name: &str, change: impl Fn(&mut Engine)) {
    let inputs = [
        vec![],
        vec![0],
        remove(1).to_bytes(),
        Command::Deliver.to_bytes(),
        Command::Undo.to_bytes(),
    ];
    for input in inputs {
        let mut engine = engine();
        change(&mut engine);
        assert_eq!(engine.give_bytes(&input).number, 1, "{name}");
    }
}

#[test]
fn floats_that_are_not_finite() {
    let changes = [
        (
            "scale",
            (|e, v| e.clock(0).tick_scale = v) as fn(&mut Engine, f64),
        ),
        ("last update", |e, v| e.clock(0).last_update_time = v),
        ("winner", |e, v| {
            e.clock(0).current_winner = Some((CauseId(1), v))
        }),
        ("accumulated", |e, v| channel(e).accumulated_hazard = v),
        ("threshold", |e, v| channel(e).target_threshold = v),
        ("interval start", |e, v| channel(e).interval_start_time = v),
    ];
    for (name, change) in changes {
        for bad in [f64::NAN, f64::INFINITY, f64::NEG_INFINITY] {
            refused(name, |engine| change(engine, bad));
        }
    }
}

#[test]
fn hazards_that_5_or_6_would_refuse() {
    let constant = |rate| HazardRate::Unchanged(UnchangedHazard::Constant { rate });
    let piecewise = |intervals: &[(f64, f64)]| {
        HazardRate::Unchanged(UnchangedHazard::PiecewiseConstant {
            intervals: intervals.to_vec(),
            trailing_rate: 1.0,
        })
    };
    for hazard in [
        constant(f64::NAN),
        constant(2e12),
        piecewise(&[(1.0, f64::NAN)]),
        piecewise(&[(0.0, 1.0)]),
        piecewise(&[(2.0, 1.0), (2.0, 1.0)]),
    ] {
        refused("hazard", |engine| channel(engine).hazard = hazard.clone());
    }
    let mut engine = engine();
    for (count, expected) in [(8, Ok(())), (9, Err(Refusal::InvalidState))] {
        let pairs: Vec<(f64, f64)> = (1..=count).map(|end| (f64::from(end), 1.0)).collect();
        channel(&mut engine).hazard = piecewise(&pairs);
        assert_eq!(validate(&engine.state, 2, 300), expected);
    }
}

/// A scale above 0 and below 2^-40, or of a size that is refused anyhow.
#[test]
fn scales_that_5_would_refuse() {
    let weibull = |scale| HazardRate::Weibull(Weibull { scale });
    let smallest = SMALLEST_SCALE;
    let bad = [f64::NAN, f64::INFINITY, LIMIT.next_up(), -LIMIT.next_up()];
    let small = [smallest.next_down(), f64::MIN_POSITIVE, f64::from_bits(1)];
    for scale in bad.into_iter().chain(small) {
        refused("scale", |engine| channel(engine).hazard = weibull(scale));
    }
    for scale in [smallest, LIMIT, 0.0, -0.0, -smallest, -LIMIT] {
        let mut engine = engine();
        channel(&mut engine).hazard = weibull(scale);
        assert_eq!(validate(&engine.state, 2, 300), Ok(()), "{scale:e}");
    }
}

#[test]
fn nine_channels() {
    refused("channels", |engine| {
        let one = channel(engine).clone();
        for cause in (2..10).map(CauseId) {
            let mut other = one.clone();
            other.cause_id = cause;
            engine.clock(0).channels.insert(cause, other);
        }
    });
}

#[test]
fn queued_requests() {
    let queue = |engine: &mut Engine, change: fn(&mut Queued)| {
        change(&mut engine.state.scheduler.queue[0]);
    };
    refused("absent clock", |e| queue(e, |q| q.clock = 1));
    refused("no such clock", |e| queue(e, |q| q.clock = 16));
    refused("other index", |e| queue(e, |q| q.id.index = 1));
    refused("not below the counter", |e| {
        e.state.scheduler.requests_made = 0
    });
    refused("not named", |e| e.clock(0).scheduled_event_id = None);
    refused("no winner", |e| e.clock(0).current_winner = None);
    refused("an index twice", |e| {
        let queued = e.state.scheduler.queue[0];
        e.state.scheduler.queue.push(queued);
    });
    refused("seventeen", |e| {
        let queued = e.state.scheduler.queue[0];
        e.state.scheduler.queue = vec![queued; 17];
    });
}

#[test]
fn positions_and_lengths() {
    refused("draw position", |e| e.state.position = 3);
    refused("applied length", |e| e.state.applied_length = 301);
    refused("request counter", |e| e.state.scheduler.requests_made = 213);
}

/// Check 1 is what its row lists and no more.
#[test]
fn a_clock_may_name_a_request_that_is_not_queued() {
    let mut engine = engine();
    engine.state.scheduler.queue.clear();
    engine.state.scheduler.requests_made = 212;
    let paused = engine.give(pause(1.0));
    assert_eq!((paused.number, paused.withdrawn), (0, false));
    engine.clock(0).scheduled_event_id = Some(EventId::new(77, 0));
    let queued = engine.give(reschedule(1.0));
    assert_eq!(
        (queued.number, queued.withdrawn, queued.event),
        (0, false, true)
    );
}

/// The standing call looks at the applied length alone.
#[test]
fn applied_commands_as_a_part_of_the_journal() {
    let mut engine = engine();
    let commands = [create(10.0), constant(1, 0.5, 0.0), reschedule(0.0)];
    let bytes = commands.map(|command| command.to_bytes()).concat();
    assert_eq!(applied(&engine.state, &engine.journal), Ok(&bytes[..]));
    engine.state.position = 9;
    engine.clock(0).tick_scale = f64::NAN;
    assert_eq!(applied(&engine.state, &engine.journal), Ok(&bytes[..]));
    let refused = applied(&engine.state, &engine.journal[..211]);
    assert_eq!(refused.map_err(|refusal| refusal.number()), Err(1));
}
