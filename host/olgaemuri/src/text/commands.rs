//! The commands of a session in text: reading their operands.

use super::fault::Misplaced;
use super::line::ByName;
use super::names::Names;
use super::number::{parse_float, parse_whole};
use super::operands::Operands;
use super::suggest::hint_or;
use super::words::{Word, Words};
use crate::choices::{Policy, Tie};
use crate::command::{Command, Entity};
use crate::hazard::{Hazard, MAX_PAIRS, Pair};

/// The words that begin a command, and the operands that may follow.
pub(crate) const COMMANDS: [(&str, &[&str]); 8] = [
    (
        "create",
        &["machine", "process", "policy", "tie", "scale", "entity"],
    ),
    (
        "set",
        &[
            "machine", "cause", "priority", "now", "hazard", "rate", "eta", "pieces", "then",
            "scale",
        ],
    ),
    ("remove", &["machine", "cause"]),
    ("reschedule", &["machine", "now", "censor", "priority"]),
    ("pause", &["machine", "now"]),
    ("resume", &["machine", "now", "censor", "priority"]),
    ("deliver", &[]),
    ("undo", &[]),
];

/// By the number of the kind.
pub(crate) const HAZARDS: [&str; 5] = ["zero", "constant", "gompertz", "piecewise", "weibull"];

/// The command of a line whose first word is a known one, and which of its operands are names.
pub(crate) fn read_command(
    words: &Words,
    known: &[&str],
    names: &Names,
) -> Result<(Command, ByName), Misplaced> {
    let mut operands = Operands::new(words, known, names)?;
    let command = command(&words.words[0].text, &mut operands)?;
    Ok((command, operands.by_name))
}

fn command(word: &str, operands: &mut Operands) -> Result<Command, Misplaced> {
    match word {
        "create" => create(operands),
        "set" => set(operands),
        "remove" => Ok(Command::Remove {
            clock: operands.machine()?,
            cause: operands.cause()?,
        }),
        "reschedule" => {
            let (clock, now, censor, priority) = reschedule(operands)?;
            Ok(Command::Reschedule {
                clock,
                now,
                censor,
                priority,
            })
        }
        "pause" => Ok(Command::Pause {
            clock: operands.machine()?,
            now: operands.float("now")?,
        }),
        "resume" => {
            let (clock, now, censor, priority) = reschedule(operands)?;
            Ok(Command::Resume {
                clock,
                now,
                censor,
                priority,
            })
        }
        "deliver" => Ok(Command::Deliver),
        _ => Ok(Command::Undo),
    }
}

fn create(operands: &mut Operands) -> Result<Command, Misplaced> {
    let clock = operands.machine()?;
    let policy = Policy::ALL[operands.choice("policy", &Policy::WORDS)?];
    let process = operands.whole("process", 0, u64::MAX)?;
    let tie = Tie::ALL[operands.optional_choice("tie", &Tie::WORDS)?];
    let scale = operands.optional_float("scale")?.unwrap_or(1.0);
    let entity = operands
        .optional("entity")
        .map(|word| entity(&word))
        .transpose()?;
    Ok(Command::Create {
        clock,
        process,
        policy,
        tie,
        scale,
        entity,
    })
}

/// `INDEX:GENERATION`.
fn entity(word: &Word) -> Result<Entity, Misplaced> {
    let parts = word.text.split_once(':');
    let read = parts.and_then(|(index, generation)| {
        let index = parse_whole(index, 0, u64::MAX).ok()?;
        let generation = parse_whole(generation, 0, u32::MAX).ok()?;
        Some(Entity { index, generation })
    });
    let message = format!(
        "expected INDEX:GENERATION, two whole numbers such as 12:0, not `{}`",
        word.text
    );
    read.ok_or_else(|| Misplaced::new(word.column, message))
}

/// The operands of `reschedule` and of `resume`.
fn reschedule(operands: &mut Operands) -> Result<(u8, f64, Option<f64>, i32), Misplaced> {
    let (clock, now) = (operands.machine()?, operands.float("now")?);
    let censor = operands.optional_float("censor")?;
    Ok((
        clock,
        now,
        censor,
        operands.whole("priority", i32::MIN, i32::MAX)?,
    ))
}

fn set(operands: &mut Operands) -> Result<Command, Misplaced> {
    let (clock, cause) = (operands.machine()?, operands.cause()?);
    let priority = operands.whole("priority", 0, u32::MAX)?;
    let now = operands.float("now")?;
    let kind = operands.choice("hazard", &HAZARDS)?;
    let hazard = match kind {
        0 => Hazard::Zero,
        1 => Hazard::Constant(operands.float("rate")?),
        2 => Hazard::Gompertz(operands.float("eta")?),
        3 => Hazard::PiecewiseConstant {
            pairs: operands
                .optional("pieces")
                .map_or(Ok(Vec::new()), |word| pieces(&word))?,
            trailing: operands.float("then")?,
        },
        _ => Hazard::Weibull(operands.float("scale")?),
    };
    operands.finish(&format!("hazard={}", HAZARDS[kind]))?;
    Ok(Command::Set {
        clock,
        cause,
        priority,
        hazard,
        now,
    })
}

/// `END:RATE,END:RATE,...`
fn pieces(word: &Word) -> Result<Vec<Pair>, Misplaced> {
    let mut pairs = Vec::new();
    let mut column = word.column;
    for text in word.text.split(',') {
        if pairs.len() == MAX_PAIRS {
            return Err(Misplaced::new(
                column,
                format!("expected at most {MAX_PAIRS} pieces"),
            ));
        }
        pairs.push(piece(text, column)?);
        column += text.chars().count() + 1;
    }
    Ok(pairs)
}

fn piece(text: &str, column: usize) -> Result<Pair, Misplaced> {
    let Some((end, rate)) = text.split_once(':') else {
        let message = format!("expected a piece END:RATE such as 100:0.5, not `{text}`");
        return Err(Misplaced::new(column, message));
    };
    let after = column + end.chars().count() + 1;
    Ok(Pair {
        end: parse_float(end).map_err(|message| Misplaced::new(column, message))?,
        rate: parse_float(rate).map_err(|message| Misplaced::new(after, message))?,
    })
}

/// The operands of a command, or what its first word should have been.
pub(crate) fn known_operands(
    word: &Word,
    others: &[&str],
) -> Result<&'static [&'static str], Misplaced> {
    let found = COMMANDS.iter().find(|command| command.0 == word.text);
    found.map(|command| command.1).ok_or_else(|| {
        let commands = COMMANDS.iter().map(|command| command.0);
        let known: Vec<&str> = commands.chain(others.iter().copied()).collect();
        let all = format!("; a line begins with {}", known.join(", "));
        let hint = hint_or(&word.text, &known, &all);
        Misplaced::new(word.column, format!("unknown word `{}`{hint}", word.text))
    })
}
