//! What is given to the engine: a typed command, or bytes that are none.

use crate::command::Command;
use crate::command_bytes::width;

/// One input of a session.
#[derive(Clone, Debug, PartialEq)]
pub enum Input {
    /// A command.
    Command(Command),
    /// Bytes that no [`Command`] has. The engine refuses them.
    Raw(Vec<u8>),
}

impl Input {
    /// The input's bytes.
    #[must_use]
    pub fn to_bytes(&self) -> Vec<u8> {
        match self {
            Self::Command(command) => command.to_bytes(),
            Self::Raw(bytes) => bytes.clone(),
        }
    }

    /// How many bytes it has.
    #[must_use]
    pub fn width(&self) -> usize {
        match self {
            Self::Command(command) => command.width(),
            Self::Raw(bytes) => bytes.len(),
        }
    }

    /// The command, where it is one.
    #[must_use]
    pub fn command(&self) -> Option<&Command> {
        match self {
            Self::Command(command) => Some(command),
            Self::Raw(_) => None,
        }
    }

    /// Cuts a list of commands into inputs as the engine does. Where no whole command begins, all that is left is one
    /// [`Input::Raw`], since a run ends there. The inputs' bytes one after another are the bytes given.
    #[must_use]
    pub fn split(bytes: &[u8]) -> Vec<Self> {
        parts(bytes).map(Self::of).collect()
    }

    /// The input with these bytes, which are one of [`parts`].
    pub(crate) fn of(part: &[u8]) -> Self {
        Command::from_bytes(part).map_or_else(|_| Self::Raw(part.to_vec()), Self::Command)
    }
}

impl From<Command> for Input {
    fn from(command: Command) -> Self {
        Self::Command(command)
    }
}

/// The bytes of each input of a list.
pub(crate) fn parts(mut rest: &[u8]) -> impl Iterator<Item = &[u8]> {
    std::iter::from_fn(move || {
        let (front, back) = rest.split_at(front_length(rest));
        rest = back;
        (!front.is_empty()).then_some(front)
    })
}

/// How many bytes belong to the first input.
fn front_length(bytes: &[u8]) -> usize {
    let whole = bytes.first().and_then(|code| width(*code));
    whole
        .filter(|width| *width <= bytes.len())
        .unwrap_or(bytes.len())
}
