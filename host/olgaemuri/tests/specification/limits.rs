//! The limits, each tried at its value and just beyond it.

use crate::common::{create, reschedule, set, set_wear};
use crate::document::{number, table};
use olgaemuri::{CLOCKS, Command, Hazard, MAX_PAIRS, NO_CAUSE, Pair, Policy, Session};

/// A limit's value and the refusal beyond it.
pub fn limit(name: &str) -> (&'static str, usize) {
    let rows = table("| limit | value | beyond it |");
    let row = rows
        .iter()
        .find(|row| row[0] == name)
        .unwrap_or_else(|| panic!("no limit {name}"));
    (row[1], number(row[2]))
}

/// A number, or a power `2^40`.
fn float(value: &str) -> f64 {
    match value.split_once('^') {
        Some((base, exponent)) => f64::powi(number(base) as f64, number(exponent) as i32),
        None => number(value) as f64,
    }
}

/// The number in the answer to a command behind CREATE of clock 0, with this one threshold.
pub fn answer(threshold: f64, command: Command) -> usize {
    let mut session = Session::new([threshold]);
    session.extend([create(Policy::Restart), command]);
    usize::from(session.run().steps[1].answer.number())
}

/// Accepted at the limit, refused just beyond it.
fn holds(name: &str, command: impl Fn(f64) -> (f64, Command)) {
    let (value, refusal) = limit(name);
    let most = float(value);
    for (value, number) in [(most, 0), (most.next_up(), refusal)] {
        let (threshold, command) = command(value);
        assert_eq!(answer(threshold, command), number, "{name} {value}");
    }
}

fn ending_at(end: f64) -> Hazard {
    Hazard::PiecewiseConstant {
        pairs: vec![Pair { end, rate: 1.0 }],
        trailing: 0.0,
    }
}

fn pieces(count: usize) -> Command {
    let pairs = (1..=count)
        .map(|end| Pair {
            end: end as f64,
            rate: 1.0,
        })
        .collect();
    let hazard = Hazard::PiecewiseConstant {
        pairs,
        trailing: 0.0,
    };
    Command::Set {
        clock: 0,
        cause: 1,
        priority: 0,
        hazard,
        now: 0.0,
    }
}

#[test]
fn of_floats() {
    holds("largest threshold", |value| (value, set(1, 0.5, 0.0)));
    holds("largest time: now, censor, age", |value| {
        (1.0, set(1, 0.5, value))
    });
    holds("largest time: now, censor, age", |value| {
        (1.0, reschedule(value))
    });
    holds("largest size of a rate or scale", |value| {
        (1.0, set(1, value, 0.0))
    });
    holds("largest size of a rate or scale", |value| {
        (1.0, set(1, -value, 0.0))
    });
    holds("largest size of a rate or scale", |value| {
        (1.0, set_wear(1, value, 0.0))
    });
    holds("largest size of a rate or scale", |value| {
        (1.0, set_wear(1, -value, 0.0))
    });
    holds("largest end of a pair", |value| {
        let hazard = ending_at(value);
        (
            1.0,
            Command::Set {
                clock: 0,
                cause: 1,
                priority: 0,
                hazard,
                now: 0.0,
            },
        )
    });
}

#[test]
fn of_clocks_and_causes() {
    let (clocks, refusal) = limit("clocks");
    assert_eq!(number(clocks), CLOCKS);
    let pause = |clock| Command::Pause { clock, now: 0.0 };
    assert_eq!(answer(1.0, pause(CLOCKS as u8)), refusal);
    assert_eq!(answer(1.0, pause(CLOCKS as u8 - 1)), 9);
    let (cause, refusal) = limit("largest cause");
    let cause = u32::from_str_radix(cause.trim_end_matches(" hex"), 16).expect("hexadecimal");
    assert_eq!(cause, NO_CAUSE - 1);
    assert_eq!(answer(1.0, set(cause, 0.5, 0.0)), 0);
    assert_eq!(answer(1.0, set(cause + 1, 0.5, 0.0)), refusal);
    let (causes, refusal) = limit("causes in a clock");
    let mut session = Session::new([1.0; 20]);
    session.push(create(Policy::Restart));
    session.extend((0..=number(causes) as u32).map(|cause| set(cause, 0.5, 0.0)));
    let outcome = session.run();
    let numbers: Vec<usize> = outcome.answers().map(|a| usize::from(a.number())).collect();
    let accepted = [0].repeat(number(causes) + 1);
    assert_eq!(numbers, [accepted, vec![refusal]].concat());
}

#[test]
fn of_pairs() {
    let (most, refusal) = limit("pairs in a hazard");
    assert_eq!(number(most), MAX_PAIRS);
    assert_eq!(answer(1.0, pieces(MAX_PAIRS)), 0);
    assert_eq!(answer(1.0, pieces(MAX_PAIRS + 1)), refusal);
}

#[test]
fn of_ticks() {
    // 2^40 times the scale 2^40 is the most that a command can ask for
    let most = float("2^40");
    let mut session = Session::new([0.0]);
    let Command::Create {
        clock,
        process,
        policy,
        tie,
        entity,
        ..
    } = create(Policy::Restart)
    else {
        panic!("CREATE")
    };
    session.push(Command::Create {
        clock,
        process,
        policy,
        tie,
        scale: most,
        entity,
    });
    session.extend([set(1, 1.0, 0.0), reschedule(most)]);
    assert_eq!(session.run().pending()[0].ticks, 1 << 80);
    let rows = table("| limit | value | beyond it |");
    let row = rows
        .iter()
        .find(|row| row[0] == "largest number of ticks")
        .expect("the limit");
    assert_eq!(row[1], "2^128 − 1");
}
