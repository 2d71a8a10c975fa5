//! Chosen states with a channel of hazard kind 4 (document 02, change 4), handed in to both sides: sums and hazards that are infinite, as
//! no command makes them, the smallest and the largest numbers, and scales at their limits and beyond.

use crate::both::Both;
use crate::layout::{Layout, Part};
use crate::tally::Refusals;
use reference::command::{Command, Create, Reschedule, Set};
use reference::fields::LIMIT;
use reference::hazard::{Hazard, SMALLEST_SCALE, WEIBULL};
use reference::record::decode;

const JOURNAL: usize = 1000;
const THRESHOLDS: [f64; 2] = [4.0, 1.0];

/// The channel whose fields are changed.
const CHANNEL: Part = Part::Channel(0, 0);

/// Names of fields, and what they hold instead.
type Change = &'static [(&'static str, f64)];

const CHANGES: [Change; 22] = [
    &[("threshold", 1e308), ("accumulated hazard", -1e308)],
    &[("threshold", 1e308), ("accumulated hazard", -7e307)],
    &[("threshold", f64::MAX)],
    &[("threshold", f64::MAX), ("first", LIMIT)],
    &[("threshold", f64::from_bits(1))],
    &[("threshold", 1.0f64.next_down())],
    &[("threshold", 1.0f64.next_up()), ("first", 3.0)],
    &[("threshold", -0.0)],
    &[("accumulated hazard", -0.0), ("first", -0.0)],
    &[("interval start", -1e308)],
    &[("interval start", -1e308), ("first", SMALLEST_SCALE)],
    &[("interval start", -1e308), ("first", -1.0)],
    &[("interval start", -1e150)],
    &[("interval start", 1e308)],
    &[("first", SMALLEST_SCALE)],
    &[("first", SMALLEST_SCALE.next_down())],
    &[("first", f64::from_bits(1))],
    &[("first", -f64::from_bits(1))],
    &[("first", LIMIT)],
    &[("first", LIMIT.next_up())],
    &[("first", f64::INFINITY)],
    &[("first", f64::NAN)],
];

/// How many chosen states there are here.
pub const COUNT: usize = CHANGES.len();

/// Each list of commands given to each state, with what both sides answered.
pub fn compare(layout: &Layout) -> Result<Refusals, String> {
    let stream: Vec<u8> = THRESHOLDS.into_iter().flat_map(f64::to_le_bytes).collect();
    let base = base(layout, &stream)?;
    let mut refusals = Refusals::default();
    for (place, change) in (1..).zip(CHANGES) {
        for commands in lists() {
            let said = |words| format!("chosen state {place}, {commands:?}: {words}");
            let mut both = changed(layout, &base, change).map_err(said)?;
            for command in &commands {
                let answer = both.give(layout, &stream, &command.to_bytes());
                refusals.count(answer.map_err(said)?[0]);
            }
        }
    }
    Ok(refusals)
}

/// Clock 0 with cause 1 of kind 4, scale 1, threshold 4, due at 2.
fn base(layout: &Layout, stream: &[u8]) -> Result<Both, String> {
    let mut both = Both::open(JOURNAL);
    let create = Command::Create(Create {
        policy: 1,
        scale: 10.0,
        ..Create::default()
    });
    for command in [
        create,
        set(Hazard::single_rate(WEIBULL, 1.0), 0.0),
        Command::Reschedule(at(0.0)),
    ] {
        let answer = both.give(layout, stream, &command.to_bytes());
        let said = |words| format!("chosen state 0: {words}");
        if answer.map_err(said)?[0] != 0 {
            return Err("chosen state 0, a command is refused".to_string());
        }
    }
    Ok(both)
}

fn changed(layout: &Layout, base: &Both, change: Change) -> Result<Both, String> {
    let mut record = base.rows.record(layout);
    for (name, value) in change {
        let field = layout.fields.iter().find(|f| f.is(CHANNEL, name));
        let field = field.ok_or_else(|| format!("no field {name}"))?;
        record[field.at..][..8].copy_from_slice(&value.to_le_bytes());
    }
    let state = decode(&record).ok_or("not a state of the Rust")?;
    Ok(Both::with(layout, state, &base.journal))
}

/// SET of cause 1 of the first clock.
pub fn set(hazard: Hazard, now: f64) -> Command {
    Command::Set(Set {
        cause: 1,
        hazard,
        now,
        ..Set::default()
    })
}

pub fn at(now: f64) -> Reschedule {
    Reschedule {
        now,
        ..Reschedule::default()
    }
}

/// Every command that looks at the channel, and one after it that finds what it left.
fn lists() -> [Vec<Command>; 6] {
    let censored = Reschedule {
        has_censor: 1,
        censor: 5.0,
        ..at(1.0)
    };
    let pause = |now| Command::Pause { clock: 0, now };
    let remove = Command::Remove { clock: 0, cause: 1 };
    [
        vec![Command::Reschedule(at(0.0)), Command::Deliver],
        vec![Command::Reschedule(censored), Command::Deliver],
        vec![pause(1.0), Command::Resume(at(2.0))],
        vec![
            set(Hazard::single_rate(WEIBULL, 3.0), 1.0),
            Command::Reschedule(at(1.0)),
            remove,
        ],
        vec![Command::Resume(at(LIMIT)), pause(LIMIT), remove],
        vec![Command::Undo, Command::Undo],
    ]
}
