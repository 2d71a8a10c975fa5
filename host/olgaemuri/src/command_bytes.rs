//! Commands to bytes and back: codes, widths, operands (document 01, "A command comes in").

use crate::choices::{Policy, Tie};
use crate::command::{Command, Entity};
use crate::fields::{Reader, Writer};
use crate::hazard::{Hazard, MAX_PAIRS, Pair};
use crate::refusal::Refusal;

const CREATE: u8 = 1;
const SET: u8 = 2;
const REMOVE: u8 = 3;
const RESCHEDULE: u8 = 4;
const PAUSE: u8 = 5;
const RESUME: u8 = 6;
const DELIVER: u8 = 7;
const UNDO: u8 = 8;

/// The width in bytes of the command with this code, the code byte among them.
#[must_use]
pub fn width(code: u8) -> Option<usize> {
    match code {
        CREATE => Some(33),
        SET => Some(156),
        REMOVE => Some(6),
        RESCHEDULE | RESUME => Some(23),
        PAUSE => Some(10),
        DELIVER | UNDO => Some(1),
        _ => None,
    }
}

impl Command {
    /// The code byte, 1 to 8.
    #[must_use]
    pub fn code(&self) -> u8 {
        match self {
            Self::Create { .. } => CREATE,
            Self::Set { .. } => SET,
            Self::Remove { .. } => REMOVE,
            Self::Reschedule { .. } => RESCHEDULE,
            Self::Pause { .. } => PAUSE,
            Self::Resume { .. } => RESUME,
            Self::Deliver => DELIVER,
            Self::Undo => UNDO,
        }
    }

    /// The width in bytes.
    #[must_use]
    pub fn width(&self) -> usize {
        width(self.code()).expect("a code of the table")
    }

    /// The command's bytes, as many as its width.
    #[must_use]
    pub fn to_bytes(&self) -> Vec<u8> {
        let mut out = Writer::default();
        out.u8(self.code());
        if let Some(clock) = self.clock() {
            out.u8(clock);
        }
        self.write_operands(&mut out);
        out.0
    }

    /// The operands behind the clock.
    fn write_operands(&self, out: &mut Writer) {
        match self {
            Self::Create {
                process,
                policy,
                tie,
                scale,
                entity,
                ..
            } => {
                out.u64(*process).u8(policy.number()).u8(tie.number());
                out.f64(*scale);
                write_entity(out, *entity);
            }
            Self::Set {
                cause,
                priority,
                hazard,
                now,
                ..
            } => {
                out.u32(*cause).u32(*priority);
                write_hazard(out, hazard, *now);
            }
            Self::Remove { cause, .. } => {
                out.u32(*cause);
            }
            Self::Reschedule { .. } | Self::Pause { .. } | Self::Resume { .. } => {
                self.write_times(out)
            }
            Self::Deliver | Self::Undo => {}
        }
    }

    /// The present time; then the censor time and the priority of RESCHEDULE and RESUME.
    fn write_times(&self, out: &mut Writer) {
        if let Some(now) = self.now() {
            out.f64(now);
        }
        if let Self::Reschedule {
            censor, priority, ..
        }
        | Self::Resume {
            censor, priority, ..
        } = self
        {
            out.u8(u8::from(censor.is_some()))
                .f64(censor.unwrap_or(0.0));
            out.i32(*priority);
        }
    }

    /// The command at the front of the bytes; those past its width are ignored. [`Command::to_bytes`] gives the same bytes back.
    ///
    /// # Errors
    ///
    /// 3 for no byte, 2 for an unknown code, 3 for fewer bytes than the width; 4 or 6 where a field has a value that no command of
    /// this type has. (The engine may refuse such bytes by another number, since it tests 5 between these.) Values that can be
    /// expressed are not tested: whether a time is out of range, say, is left to the engine.
    pub fn from_bytes(bytes: &[u8]) -> Result<Self, Refusal> {
        let code = *bytes.first().ok_or(Refusal::CutShort)?;
        let width = width(code).ok_or(Refusal::UnknownCode)?;
        let operands = bytes.get(1..width).ok_or(Refusal::CutShort)?;
        let mut fields = Reader(operands);
        match code {
            CREATE => read_create(&mut fields),
            SET => read_set(&mut fields),
            REMOVE => Ok(Self::Remove {
                clock: fields.u8(),
                cause: fields.u32(),
            }),
            RESCHEDULE => read_reschedule(&mut fields, |clock, now, censor, priority| {
                Self::Reschedule {
                    clock,
                    now,
                    censor,
                    priority,
                }
            }),
            PAUSE => Ok(Self::Pause {
                clock: fields.u8(),
                now: fields.f64(),
            }),
            RESUME => read_reschedule(&mut fields, |clock, now, censor, priority| Self::Resume {
                clock,
                now,
                censor,
                priority,
            }),
            DELIVER => Ok(Self::Deliver),
            _ => Ok(Self::Undo),
        }
    }
}

fn write_entity(out: &mut Writer, entity: Option<Entity>) {
    let fields = entity.unwrap_or(Entity {
        index: 0,
        generation: 0,
    });
    out.u8(u8::from(entity.is_some()))
        .u64(fields.index)
        .u32(fields.generation);
}

/// Kind, first, now, count and the eight places for pairs.
fn write_hazard(out: &mut Writer, hazard: &Hazard, now: f64) {
    let count = u8::try_from(hazard.pairs().len()).unwrap_or(u8::MAX);
    out.u8(hazard.kind()).f64(hazard.first()).f64(now).u8(count);
    let blank = [Pair::default(); MAX_PAIRS];
    for pair in hazard.pairs().iter().chain(&blank).take(MAX_PAIRS) {
        out.f64(pair.end).f64(pair.rate);
    }
}

/// A value after its has-byte: none after 0, which the value's bits must agree with.
fn optional<T>(has: u8, value: T, is_blank: bool) -> Result<Option<T>, Refusal> {
    match has {
        0 if is_blank => Ok(None),
        1 => Ok(Some(value)),
        _ => Err(Refusal::InvalidChoice),
    }
}

fn read_create(fields: &mut Reader) -> Result<Command, Refusal> {
    let (clock, process) = (fields.u8(), fields.u64());
    let policy = Policy::from_number(fields.u8()).ok_or(Refusal::InvalidChoice)?;
    let tie = Tie::from_number(fields.u8()).ok_or(Refusal::InvalidChoice)?;
    let (scale, has) = (fields.f64(), fields.u8());
    let entity = Entity {
        index: fields.u64(),
        generation: fields.u32(),
    };
    let entity = optional(has, entity, entity.index == 0 && entity.generation == 0)?;
    Ok(Command::Create {
        clock,
        process,
        policy,
        tie,
        scale,
        entity,
    })
}

fn read_set(fields: &mut Reader) -> Result<Command, Refusal> {
    let (clock, cause, priority) = (fields.u8(), fields.u32(), fields.u32());
    let (kind, first, now, count) = (fields.u8(), fields.f64(), fields.f64(), fields.u8());
    let pairs = [(); MAX_PAIRS].map(|()| Pair {
        end: fields.f64(),
        rate: fields.f64(),
    });
    let hazard = Hazard::from_fields(kind, first, count, &pairs)?;
    Ok(Command::Set {
        clock,
        cause,
        priority,
        hazard,
        now,
    })
}

/// The operands of RESCHEDULE and of RESUME.
fn read_reschedule(
    fields: &mut Reader,
    command: impl Fn(u8, f64, Option<f64>, i32) -> Command,
) -> Result<Command, Refusal> {
    let (clock, now, has, censor) = (fields.u8(), fields.f64(), fields.u8(), fields.f64());
    let censor = optional(has, censor, censor.to_bits() == 0)?;
    Ok(command(clock, now, censor, fields.i32()))
}
