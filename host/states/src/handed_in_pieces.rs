//! Chosen states with a winner's piece (document 02, change 6), handed in to both sides: pieces that no command makes, beside an
//! uncensored winner, a censored one and none; and channels whose inversion finds no piece or another one.

use crate::both::Both;
use crate::handed_in::{self, at, set};
use crate::layout::{Layout, Part};
use crate::reading::{self, Reading};
use crate::rows::Rows;
use crate::tally::{Refusals, Tally};
use crate::tampered::Tries;
use cases::random::Random;
use reference::command::{Command, Create, Reschedule};
use reference::hazard::{CONSTANT, Hazard};

const JOURNAL: usize = 1000;
const THRESHOLDS: [f64; 3] = [4.0, 1.5, 1.0];

const CLOCK: Part = Part::Clock(0);
const CHANNEL: Part = Part::Channel(0, 0);

/// Words for the piece: bytes around those that commands make, and words that are not coded.
const PIECES: [u64; 9] = [0, 1, 3, 8, 9, 255, 256, 1 << 32, u64::MAX];

/// The part, name and bits of a field that is changed.
type Change = (Part, &'static str, u64);

/// Each list of commands given to each state, with what both sides answered.
pub fn compare(layout: &Layout) -> Result<Refusals, String> {
    let stream: Vec<u8> = THRESHOLDS.into_iter().flat_map(f64::to_le_bytes).collect();
    let mut refusals = Refusals::default();
    let mut place = handed_in::COUNT;
    for (commands, changes) in bases() {
        let base = base(layout, &stream, &commands)?;
        for change in changes {
            place += 1;
            let said = |words| format!("chosen state {place}, {change:?}: {words}");
            let rows = changed(layout, &base, &change).map_err(said)?;
            give(layout, &stream, &rows, &base.journal, &mut refusals).map_err(said)?;
        }
    }
    Ok(refusals)
}

/// Lists of commands to a state of the Rust; single commands to other rows.
fn give(
    layout: &Layout,
    stream: &[u8],
    rows: &Rows,
    journal: &[u8],
    refusals: &mut Refusals,
) -> Result<(), String> {
    for commands in lists() {
        let said = |words| format!("{commands:?}: {words}");
        if let Reading::Exact(state) = reading::read(layout, rows) {
            let mut both = Both::with(layout, state, journal);
            for command in &commands {
                let answer = both.give(layout, stream, &command.to_bytes());
                refusals.count(answer.map_err(said)?[0]);
            }
        } else {
            let mut tries = Tries {
                layout,
                stream,
                random: &mut Random::new(0),
                tally: &mut Tally::default(),
            };
            let number = tries.number(rows, journal, &commands[0].to_bytes());
            refusals.count(number.map_err(said)?);
        }
    }
    Ok(())
}

/// Clock 0 with P of document 01's table for cause 1: with threshold 4.0 it is due at 9.0, in piece 2. Each with the changes tried on it:
/// the uncensored winner queued, a censored one, an uncensored one that is not queued any more, none, and none after a delivery.
fn bases() -> [(Vec<Command>, Vec<Vec<Change>>); 6] {
    let pieces = || {
        PIECES
            .map(|piece| vec![(CLOCK, "winner's piece", piece)])
            .to_vec()
    };
    let queued = Command::Reschedule(at(0.0));
    let censored = Command::Reschedule(censored(0.0, 3.0));
    [
        (vec![queued], pieces()),
        (vec![censored], pieces()),
        (vec![queued, pause(1.0)], pieces()),
        (vec![], pieces()),
        (vec![queued, Command::Deliver], pieces()),
        (vec![queued], channels()),
    ]
}

/// Thresholds reached and out of reach, a trailing wait that is infinite or none, a channel of the censored cause; the winner's piece is
/// another one than the next event's.
fn channels() -> Vec<Vec<Change>> {
    let float = |name: &'static str, value: f64| (CHANNEL, name, value.to_bits());
    let changes = [
        vec![float("accumulated hazard", 4.0)],
        vec![float("accumulated hazard", 9.0)],
        vec![float("accumulated hazard", -0.0)],
        vec![float("accumulated hazard", -1e308)],
        vec![float("accumulated hazard", 2.0f64.next_down())],
        vec![float("threshold", -0.0)],
        vec![float("threshold", f64::from_bits(1))],
        vec![float("threshold", 2.0f64.next_up())],
        vec![float("threshold", f64::MAX)],
        vec![
            float("threshold", 1e308),
            float("accumulated hazard", -1e308),
        ],
        vec![float("first", f64::from_bits(1))],
        vec![float("first", -1.0)],
        vec![float("first", 1e-300), float("threshold", 1e10)],
        vec![(CHANNEL, "cause", u64::from(u32::MAX))],
        vec![(CLOCK, "winner's cause", u64::from(u32::MAX))],
    ];
    let with_piece = |mut change: Vec<Change>| {
        change.push((CLOCK, "winner's piece", 7));
        change
    };
    changes.map(with_piece).to_vec()
}

/// Both sides after CREATE, SET and the commands, which are accepted.
fn base(layout: &Layout, stream: &[u8], commands: &[Command]) -> Result<Both, String> {
    let mut both = Both::open(JOURNAL);
    let create = Command::Create(Create {
        policy: 1,
        scale: 10.0,
        ..Create::default()
    });
    let set = set(Hazard::piecewise(&[(2.0, 1.0), (5.0, 0.0)], 0.5), 0.0);
    for command in [create, set].iter().chain(commands) {
        let answer = both.give(layout, stream, &command.to_bytes());
        let said = |words| format!("chosen state 0: {words}");
        if answer.map_err(said)?[0] != 0 {
            return Err("chosen state 0, a command is refused".to_string());
        }
    }
    Ok(both)
}

fn changed(layout: &Layout, base: &Both, change: &[Change]) -> Result<Rows, String> {
    let mut rows = base.rows.clone();
    for (part, name, bits) in change {
        let field = layout.fields.iter().find(|f| f.is(*part, name));
        let field = field.ok_or_else(|| format!("no field {name}"))?;
        rows.put(field.place, *bits);
    }
    Ok(rows)
}

fn censored(now: f64, censor: f64) -> Reschedule {
    Reschedule {
        has_censor: 1,
        censor,
        ..at(now)
    }
}

fn pause(now: f64) -> Command {
    Command::Pause { clock: 0, now }
}

/// Every command that makes, keeps, gives or compares a piece.
fn lists() -> [Vec<Command>; 10] {
    let deliver = Command::Deliver;
    let remove = Command::Remove { clock: 0, cause: 1 };
    let [now, later] = [0.0, 1.0].map(|now| Command::Reschedule(at(now)));
    let constant = set(Hazard::single_rate(CONSTANT, 0.5), 1.0);
    [
        vec![deliver, now, deliver],
        vec![Command::Undo, deliver],
        vec![now, deliver, Command::Undo],
        vec![Command::Resume(at(1.0)), deliver],
        vec![Command::Reschedule(censored(0.0, 3.0)), deliver],
        vec![constant, deliver, now, deliver],
        vec![
            remove,
            later,
            Command::Reschedule(censored(1.0, 4.0)),
            deliver,
        ],
        vec![remove, later, Command::Undo],
        vec![pause(1.0), Command::Resume(at(2.0)), deliver],
        vec![pause(20.0), Command::Resume(at(20.0)), deliver],
    ]
}
