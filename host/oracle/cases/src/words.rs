//! Commands, answers and floats in words, for the report of a difference.

use reference::command::{Command, Create, NAMES, Reschedule, Set};
use reference::fields::{Reader, is_zero_bits};
use reference::hazard::{Hazard, Pair};
use reference::refusal::Refusal;

/// Decimal digits that give the float back; the bits of a NaN.
pub fn float(value: f64) -> String {
    if value.is_nan() {
        format!("NaN {:016x}", value.to_bits())
    } else {
        format!("{value:?}")
    }
}

pub fn hex(bytes: &[u8]) -> String {
    let bytes: Vec<String> = bytes.iter().map(|byte| format!("{byte:02x}")).collect();
    bytes.join(" ")
}

/// Pairs that are all zero are left out.
pub fn hazard(hazard: &Hazard) -> String {
    let filled = |pair: &&Pair| !is_zero_bits(pair.end) || !is_zero_bits(pair.rate);
    let pairs = hazard.pairs.iter().filter(filled);
    let pairs: Vec<String> = pairs
        .map(|pair| format!("({}, {})", float(pair.end), float(pair.rate)))
        .collect();
    let (kind, first, count) = (hazard.kind, float(hazard.first), hazard.count);
    let pairs = pairs.join(" ");
    format!("kind {kind}, first {first}, count {count}, pairs {pairs}")
}

/// One input: a command by its name and operands, or the bytes that are no whole command.
pub fn input(bytes: &[u8]) -> String {
    match Command::read(bytes) {
        Ok(command) => self::command(&command),
        Err(_) => format!("no whole command: {}", hex(bytes)),
    }
}

pub fn command(command: &Command) -> String {
    let name = NAMES[usize::from(command.code())];
    let operands = match command {
        Command::Create(create) => created(create),
        Command::Set(set) => cause(set),
        Command::Remove { clock, cause } => format!("clock {clock}, cause {cause}"),
        Command::Reschedule(operands) | Command::Resume(operands) => planned(operands),
        Command::Pause { clock, now } => format!("clock {clock}, now {}", float(*now)),
        Command::Deliver | Command::Undo => return name.into(),
    };
    format!("{name} {operands}")
}

fn created(create: &Create) -> String {
    format!(
        "clock {}, process {}, policy {}, tie {}, scale {}, has-entity {}, entity {} generation {}",
        create.clock,
        create.process,
        create.policy,
        create.tie,
        float(create.scale),
        create.has_entity,
        create.entity_index,
        create.generation
    )
}

fn cause(set: &Set) -> String {
    format!(
        "clock {}, cause {}, priority {}, now {}, {}",
        set.clock,
        set.cause,
        set.priority,
        float(set.now),
        hazard(&set.hazard)
    )
}

fn planned(operands: &Reschedule) -> String {
    format!(
        "clock {}, now {}, has-censor {}, censor {}, priority {}",
        operands.clock,
        float(operands.now),
        operands.has_censor,
        float(operands.censor),
        operands.priority
    )
}

/// An answer of 40 bytes; those after the piece are left out.
pub fn answer(bytes: &[u8]) -> String {
    let mut reader = Reader(bytes);
    let [number, event, censored, withdrawn] = [(); 4].map(|()| reader.u8());
    let (cause, delta) = (reader.u32(), float(reader.f64()));
    let (low, high, piece) = (reader.u64(), reader.u64(), reader.u8());
    let meaning = Refusal::ALL.iter().find(|r| r.number() == number);
    let meaning = meaning.map_or(String::new(), |r| format!(" ({})", r.meaning()));
    format!(
        "number {number}{meaning}, event {event}, censored {censored}, withdrawn {withdrawn}, cause {cause}, delta {delta}, \
         ticks low {low} high {high}, piece {piece}"
    )
}
