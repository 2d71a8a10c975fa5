//! The eight commands: codes, widths, operands (document 01, "A command comes in").

use crate::fields::Reader;
use crate::hazard::{HAZARD_BYTES, Hazard, Pair};
use crate::refusal::{Refusal, require};

pub const CREATE: u8 = 1;
pub const SET: u8 = 2;
pub const REMOVE: u8 = 3;
pub const RESCHEDULE: u8 = 4;
pub const PAUSE: u8 = 5;
pub const RESUME: u8 = 6;
pub const DELIVER: u8 = 7;
pub const UNDO: u8 = 8;

/// The widest command.
pub const SET_BYTES: usize = 156;

/// By code.
pub const NAMES: [&str; 9] = [
    "",
    "CREATE",
    "SET",
    "REMOVE",
    "RESCHEDULE",
    "PAUSE",
    "RESUME",
    "DELIVER",
    "UNDO",
];

/// The width of a command in bytes, its code byte among them.
pub fn width(code: u8) -> Option<usize> {
    match code {
        CREATE => Some(33),
        SET => Some(SET_BYTES),
        REMOVE => Some(6),
        RESCHEDULE | RESUME => Some(23),
        PAUSE => Some(10),
        DELIVER | UNDO => Some(1),
        _ => None,
    }
}

#[derive(Clone, Copy, Debug, Default, PartialEq)]
pub struct Create {
    pub clock: u8,
    pub process: u64,
    pub policy: u8,
    pub tie: u8,
    pub scale: f64,
    pub has_entity: u8,
    pub entity_index: u64,
    pub generation: u32,
}

/// The operands of SET in another order: count and pairs are one with kind and first.
#[derive(Clone, Copy, Debug, Default, PartialEq)]
pub struct Set {
    pub clock: u8,
    pub cause: u32,
    pub priority: u32,
    pub hazard: Hazard,
    pub now: f64,
}

/// The operands of RESCHEDULE and of RESUME.
#[derive(Clone, Copy, Debug, Default, PartialEq)]
pub struct Reschedule {
    pub clock: u8,
    pub now: f64,
    pub has_censor: u8,
    pub censor: f64,
    pub priority: i32,
}

impl Reschedule {
    /// The censor time, if there is one.
    pub fn censor_time(&self) -> Option<f64> {
        (self.has_censor == 1).then_some(self.censor)
    }
}

/// The fields as given, tested or not.
#[derive(Clone, Copy, Debug, PartialEq)]
pub enum Command {
    Create(Create),
    Set(Set),
    Remove { clock: u8, cause: u32 },
    Reschedule(Reschedule),
    Pause { clock: u8, now: f64 },
    Resume(Reschedule),
    Deliver,
    Undo,
}

impl Command {
    /// Reads the command at the front of the bytes; those past its width are ignored. Refuses by 3
    /// for no byte, 2 for an unknown code, then 3 for fewer bytes than the width.
    pub fn read(bytes: &[u8]) -> Result<Self, Refusal> {
        let code = *bytes.first().ok_or(Refusal::CutShort)?;
        let width = width(code).ok_or(Refusal::UnknownCode)?;
        require(bytes.len() >= width, Refusal::CutShort)?;
        Ok(Self::operands(code, &mut Reader(&bytes[1..width])))
    }

    fn operands(code: u8, reader: &mut Reader) -> Self {
        match code {
            CREATE => Self::Create(read_create(reader)),
            SET => Self::Set(read_set(reader)),
            REMOVE => Self::Remove {
                clock: reader.u8(),
                cause: reader.u32(),
            },
            RESCHEDULE => Self::Reschedule(read_reschedule(reader)),
            PAUSE => Self::Pause {
                clock: reader.u8(),
                now: reader.f64(),
            },
            RESUME => Self::Resume(read_reschedule(reader)),
            DELIVER => Self::Deliver,
            _ => Self::Undo,
        }
    }

    pub fn code(&self) -> u8 {
        match self {
            Self::Create(_) => CREATE,
            Self::Set(_) => SET,
            Self::Remove { .. } => REMOVE,
            Self::Reschedule(_) => RESCHEDULE,
            Self::Pause { .. } => PAUSE,
            Self::Resume(_) => RESUME,
            Self::Deliver => DELIVER,
            Self::Undo => UNDO,
        }
    }

    pub fn width(&self) -> usize {
        width(self.code()).expect("a code of the table")
    }

    /// The clock that the command names. DELIVER and UNDO name none.
    pub fn clock(&self) -> Option<u8> {
        match self {
            Self::Create(create) => Some(create.clock),
            Self::Set(set) => Some(set.clock),
            Self::Remove { clock, .. } | Self::Pause { clock, .. } => Some(*clock),
            Self::Reschedule(operands) | Self::Resume(operands) => Some(operands.clock),
            Self::Deliver | Self::Undo => None,
        }
    }

    pub fn to_bytes(&self) -> Vec<u8> {
        let mut out = vec![self.code()];
        match self {
            Self::Create(create) => write_create(create, &mut out),
            Self::Set(set) => write_set(set, &mut out),
            Self::Remove { clock, cause } => {
                out.push(*clock);
                out.extend(cause.to_le_bytes());
            }
            Self::Pause { clock, now } => {
                out.push(*clock);
                out.extend(now.to_le_bytes());
            }
            Self::Reschedule(operands) | Self::Resume(operands) => {
                write_reschedule(operands, &mut out);
            }
            Self::Deliver | Self::Undo => {}
        }
        out
    }
}

fn read_create(reader: &mut Reader) -> Create {
    Create {
        clock: reader.u8(),
        process: reader.u64(),
        policy: reader.u8(),
        tie: reader.u8(),
        scale: reader.f64(),
        has_entity: reader.u8(),
        entity_index: reader.u64(),
        generation: reader.u32(),
    }
}

fn write_create(create: &Create, out: &mut Vec<u8>) {
    out.push(create.clock);
    out.extend(create.process.to_le_bytes());
    out.push(create.policy);
    out.push(create.tie);
    out.extend(create.scale.to_le_bytes());
    out.push(create.has_entity);
    out.extend(create.entity_index.to_le_bytes());
    out.extend(create.generation.to_le_bytes());
}

/// In a SET the time stands between first and count.
fn read_set(reader: &mut Reader) -> Set {
    let mut set = Set {
        clock: reader.u8(),
        cause: reader.u32(),
        priority: reader.u32(),
        ..Set::default()
    };
    set.hazard.kind = reader.u8();
    set.hazard.first = reader.f64();
    set.now = reader.f64();
    set.hazard.count = reader.u8();
    set.hazard.pairs = std::array::from_fn(|_| Pair {
        end: reader.f64(),
        rate: reader.f64(),
    });
    set
}

fn write_set(set: &Set, out: &mut Vec<u8>) {
    out.push(set.clock);
    out.extend(set.cause.to_le_bytes());
    out.extend(set.priority.to_le_bytes());
    let mut hazard = Vec::with_capacity(HAZARD_BYTES);
    set.hazard.encode(&mut hazard);
    let (kind_and_first, count_and_pairs) = hazard.split_at(9);
    out.extend(kind_and_first);
    out.extend(set.now.to_le_bytes());
    out.extend(count_and_pairs);
}

fn read_reschedule(reader: &mut Reader) -> Reschedule {
    Reschedule {
        clock: reader.u8(),
        now: reader.f64(),
        has_censor: reader.u8(),
        censor: reader.f64(),
        priority: reader.i32(),
    }
}

fn write_reschedule(operands: &Reschedule, out: &mut Vec<u8>) {
    out.push(operands.clock);
    out.extend(operands.now.to_le_bytes());
    out.push(operands.has_censor);
    out.extend(operands.censor.to_le_bytes());
    out.extend(operands.priority.to_le_bytes());
}
