//! Lines of a session, written in one way.

use super::commands::HAZARDS;
use super::line::{Item, Line};
use super::names::{Named, Names};
use super::number::float_text;
use super::words::quoted;
use crate::command::Command;
use crate::hazard::{Hazard, Pair};
use crate::input::Input;
use std::fmt::{self, Display, Formatter};

/// Thresholds on one line.
const PER_LINE: usize = 8;

/// Raw bytes on one line.
const RAW_PER_LINE: usize = 32;

impl Line {
    /// Writes the line and its end. Machine and cause are written by name where they were read so.
    pub(crate) fn write(&self, f: &mut Formatter, names: &Names) -> fmt::Result {
        match &self.item {
            Some(Item::Command(command)) => self.write_command(f, command, names)?,
            Some(item) => item.fmt(f)?,
            None => {}
        }
        match (&self.item, &self.comment) {
            (Some(_), Some(comment)) => writeln!(f, "  #{comment}"),
            (None, Some(comment)) => writeln!(f, "#{comment}"),
            (_, None) => writeln!(f),
        }
    }

    fn write_command(&self, f: &mut Formatter, command: &Command, names: &Names) -> fmt::Result {
        let name = |wanted: bool, named, number: Option<u32>| {
            let name = number
                .filter(|_| wanted)
                .and_then(|it| names.given(named, it));
            name.map(quoted)
        };
        let machine = command.clock().map(u32::from);
        let machine = name(self.by_name.machine, Named::Machine, machine);
        let cause = name(self.by_name.cause, Named::Cause, command.cause());
        write_command(f, command, machine, cause)
    }
}

/// As it stands in a line, without a comment.
impl Display for Item {
    fn fmt(&self, f: &mut Formatter) -> fmt::Result {
        match self {
            Self::Journal(length) => write!(f, "journal {length}"),
            Self::Thresholds(values) => write_rows(f, "thresholds", values, PER_LINE, |value| {
                float_text(*value)
            }),
            Self::ThresholdsFrom(file, _) => write!(f, "thresholds from {}", quoted(file)),
            Self::Machine(number, name) => write!(f, "machine {number} {}", quoted(name)),
            Self::Cause(number, name) => write!(f, "cause {number} {}", quoted(name)),
            Self::Command(command) => command.fmt(f),
            Self::Raw(bytes) => write_raw(f, bytes),
        }
    }
}

/// As it stands in a session in text; a raw one of more than 32 bytes in several lines.
impl Display for Input {
    fn fmt(&self, f: &mut Formatter) -> fmt::Result {
        match self {
            Self::Command(command) => command.fmt(f),
            Self::Raw(bytes) => write_raw(f, bytes),
        }
    }
}

/// As it stands in a session in text, with every operand: `pause machine=0 now=1`.
impl Display for Command {
    fn fmt(&self, f: &mut Formatter) -> fmt::Result {
        write_command(f, self, None, None)
    }
}

/// As many lines as the bytes need; none for none.
fn write_raw(f: &mut Formatter, bytes: &[u8]) -> fmt::Result {
    write_rows(f, "raw", bytes, RAW_PER_LINE, |byte| format!("{byte:02x}"))
}

/// Lines that begin with the same word and have so many values each.
fn write_rows<T>(
    f: &mut Formatter,
    word: &str,
    values: &[T],
    most: usize,
    text: impl Fn(&T) -> String,
) -> fmt::Result {
    for (index, value) in values.iter().enumerate() {
        match index {
            0 => f.write_str(word)?,
            index if index % most == 0 => write!(f, "\n{word}")?,
            _ => {}
        }
        write!(f, " {}", text(value))?;
    }
    Ok(())
}

/// The command, with a name in quotes in place of the machine's number or the cause's.
fn write_command(
    f: &mut Formatter,
    command: &Command,
    machine: Option<String>,
    cause: Option<String>,
) -> fmt::Result {
    f.write_str(command.word())?;
    if let Some(number) = command.clock() {
        write!(
            f,
            " machine={}",
            machine.unwrap_or_else(|| number.to_string())
        )?;
    }
    if let Some(number) = command.cause() {
        write!(f, " cause={}", cause.unwrap_or_else(|| number.to_string()))?;
    }
    write_operands(f, command)
}

/// The operands after machine and cause.
fn write_operands(f: &mut Formatter, command: &Command) -> fmt::Result {
    match command {
        Command::Create {
            process,
            policy,
            tie,
            scale,
            entity,
            ..
        } => {
            let scale = float_text(*scale);
            write!(
                f,
                " process={process} policy={policy} tie={tie} scale={scale}"
            )?;
            entity.map_or(Ok(()), |entity| {
                write!(f, " entity={}:{}", entity.index, entity.generation)
            })
        }
        Command::Set {
            priority,
            hazard,
            now,
            ..
        } => write!(f, " priority={priority} now={} {hazard}", float_text(*now)),
        Command::Pause { now, .. } => write!(f, " now={}", float_text(*now)),
        Command::Reschedule {
            now,
            censor,
            priority,
            ..
        }
        | Command::Resume {
            now,
            censor,
            priority,
            ..
        } => write_schedule(f, *now, *censor, *priority),
        Command::Remove { .. } | Command::Deliver | Command::Undo => Ok(()),
    }
}

fn write_schedule(f: &mut Formatter, now: f64, censor: Option<f64>, priority: i32) -> fmt::Result {
    write!(f, " now={}", float_text(now))?;
    if let Some(censor) = censor {
        write!(f, " censor={}", float_text(censor))?;
    }
    write!(f, " priority={priority}")
}

/// As it stands in a session in text: `hazard=constant rate=0.5`.
impl Display for Hazard {
    fn fmt(&self, f: &mut Formatter) -> fmt::Result {
        let kind = HAZARDS[usize::from(self.kind())];
        let first = float_text(self.first());
        match self {
            Self::Zero => write!(f, "hazard={kind}"),
            Self::Constant(_) => write!(f, "hazard={kind} rate={first}"),
            Self::Gompertz(_) => write!(f, "hazard={kind} eta={first}"),
            Self::PiecewiseConstant { pairs, .. } => {
                write!(f, "hazard={kind}")?;
                for (index, Pair { end, rate }) in pairs.iter().enumerate() {
                    let before = if index == 0 { " pieces=" } else { "," };
                    write!(f, "{before}{}:{}", float_text(*end), float_text(*rate))?;
                }
                write!(f, " then={first}")
            }
            Self::Weibull(_) => write!(f, "hazard={kind} scale={first}"),
        }
    }
}
