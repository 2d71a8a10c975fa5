//! The choices of CREATE, their bytes and their words.

use std::fmt;

/// What SET does with a threshold that is partly used up.
#[derive(Clone, Copy, Debug, PartialEq, Eq, Hash)]
#[non_exhaustive]
pub enum Policy {
    /// 0: draws a new threshold whenever a cause is set.
    Restart,
    /// 1: keeps what is left of the threshold; draws a new one once it is used up.
    RetainResidual,
}

impl Policy {
    /// The words of the text format, by number.
    pub(crate) const WORDS: [&'static str; 2] = ["restart", "retain"];

    /// Both policies, by number.
    pub const ALL: [Self; 2] = [Self::Restart, Self::RetainResidual];

    /// The byte in CREATE.
    #[must_use]
    pub fn number(self) -> u8 {
        self as u8
    }

    /// The policy with this byte.
    #[must_use]
    pub fn from_number(number: u8) -> Option<Self> {
        Self::ALL.get(usize::from(number)).copied()
    }
}

/// The word of the text format.
impl fmt::Display for Policy {
    fn fmt(&self, f: &mut fmt::Formatter) -> fmt::Result {
        f.write_str(Self::WORDS[usize::from(self.number())])
    }
}

/// Which of two causes at the same time wins.
#[derive(Clone, Copy, Debug, PartialEq, Eq, Hash)]
#[non_exhaustive]
pub enum Tie {
    /// 0: the cause with the lower number.
    LowestCause,
    /// 1: the cause with the higher number.
    HighestCause,
    /// 2: the cause with the higher priority, then the one with the lower number.
    ExplicitPriority,
}

impl Tie {
    /// The words of the text format, by number.
    pub(crate) const WORDS: [&'static str; 3] = ["lowest", "highest", "priority"];

    /// The three rules, by number.
    pub const ALL: [Self; 3] = [
        Self::LowestCause,
        Self::HighestCause,
        Self::ExplicitPriority,
    ];

    /// The byte in CREATE.
    #[must_use]
    pub fn number(self) -> u8 {
        self as u8
    }

    /// The rule with this byte.
    #[must_use]
    pub fn from_number(number: u8) -> Option<Self> {
        Self::ALL.get(usize::from(number)).copied()
    }
}

/// The word of the text format.
impl fmt::Display for Tie {
    fn fmt(&self, f: &mut fmt::Formatter) -> fmt::Result {
        f.write_str(Self::WORDS[usize::from(self.number())])
    }
}
