//! What one line of a session says.

use crate::command::Command;
use crate::input::Input;

/// A line: what it says, if anything, and its comment.
#[derive(Clone, Debug, Default, PartialEq)]
#[non_exhaustive]
pub struct Line {
    /// What it says; nothing where it is empty or a comment alone.
    pub item: Option<Item>,
    /// What stands behind `#`.
    pub comment: Option<String>,
    /// Whether its machine and its cause are written by name.
    pub(crate) by_name: ByName,
}

/// Which operands of a line are names instead of numbers.
#[derive(Clone, Copy, Debug, Default, PartialEq)]
pub(crate) struct ByName {
    pub machine: bool,
    pub cause: bool,
}

/// What a line says.
#[derive(Clone, Debug, PartialEq)]
#[non_exhaustive]
pub enum Item {
    /// The journal's length.
    Journal(u64),
    /// Recorded thresholds.
    Thresholds(Vec<f64>),
    /// Thresholds of a file: as it is named, and what it holds.
    ThresholdsFrom(String, Vec<f64>),
    /// A machine's name.
    Machine(u8, String),
    /// A cause's name.
    Cause(u32, String),
    /// A command.
    Command(Command),
    /// Bytes that no other line can say.
    Raw(Vec<u8>),
}

impl Item {
    /// The bytes that the line gives to the engine; none for a line that is no command.
    #[must_use]
    pub fn bytes(&self) -> Vec<u8> {
        match self {
            Self::Command(command) => command.to_bytes(),
            Self::Raw(bytes) => bytes.clone(),
            _ => Vec::new(),
        }
    }

    /// How many these are.
    pub(crate) fn width(&self) -> usize {
        match self {
            Self::Command(command) => command.width(),
            Self::Raw(bytes) => bytes.len(),
            _ => 0,
        }
    }

    /// The thresholds that the line gives, where it gives any.
    #[must_use]
    pub fn thresholds(&self) -> Option<&[f64]> {
        match self {
            Self::Thresholds(values) | Self::ThresholdsFrom(_, values) => Some(values),
            _ => None,
        }
    }
}

impl From<Input> for Item {
    fn from(input: Input) -> Self {
        match input {
            Input::Command(command) => Self::Command(command),
            Input::Raw(bytes) => Self::Raw(bytes),
        }
    }
}

impl From<Item> for Line {
    fn from(item: Item) -> Self {
        Self {
            item: Some(item),
            ..Self::default()
        }
    }
}
