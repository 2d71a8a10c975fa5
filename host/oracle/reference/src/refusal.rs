//! Refusals and their numbers (document 01, the table under "A command comes in"; 17 and 18 from
//! "Run call and sampler").

/// The discriminant is the paper's number.
#[derive(Clone, Copy, Debug, PartialEq, Eq)]
#[repr(u8)]
pub enum Refusal {
    InvalidState = 1,
    UnknownCode = 2,
    CutShort = 3,
    InvalidChoice = 4,
    OutOfRange = 5,
    InvalidPairs = 6,
    InvalidName = 7,
    ClockPresent = 8,
    ClockAbsent = 9,
    TooManyCauses = 10,
    QueueEmpty = 11,
    NothingApplied = 12,
    NotReplayable = 13,
    JournalFull = 14,
    StreamExhausted = 15,
    InvalidThreshold = 16,
    AnswersFull = 17,
    InvalidBuffers = 18,
}

impl Refusal {
    pub const ALL: [Self; 18] = [
        Self::InvalidState,
        Self::UnknownCode,
        Self::CutShort,
        Self::InvalidChoice,
        Self::OutOfRange,
        Self::InvalidPairs,
        Self::InvalidName,
        Self::ClockPresent,
        Self::ClockAbsent,
        Self::TooManyCauses,
        Self::QueueEmpty,
        Self::NothingApplied,
        Self::NotReplayable,
        Self::JournalFull,
        Self::StreamExhausted,
        Self::InvalidThreshold,
        Self::AnswersFull,
        Self::InvalidBuffers,
    ];

    pub fn number(self) -> u8 {
        self as u8
    }

    pub fn meaning(self) -> &'static str {
        match self {
            Self::InvalidState => "the state is not valid, or the draw position is past the stream",
            Self::UnknownCode => "no command has this code",
            Self::CutShort => "fewer bytes than the command's width",
            Self::InvalidChoice => "a choice is off its list, or an unused field is not zero",
            Self::OutOfRange => "a time, rate or scale is out of range",
            Self::InvalidPairs => "the count or the pairs of a hazard are not valid",
            Self::InvalidName => "no such clock, or the cause is the one kept for censored events",
            Self::ClockPresent => "the clock is present already",
            Self::ClockAbsent => "the clock is absent",
            Self::TooManyCauses => "more than eight causes",
            Self::QueueEmpty => "no event is queued",
            Self::NothingApplied => "no applied command is left to revert",
            Self::NotReplayable => "the applied commands do not give the present state",
            Self::JournalFull => "the command is longer than the free part of the journal",
            Self::StreamExhausted => "a draw is due and the recorded thresholds are used up",
            Self::InvalidThreshold => "the threshold due is not finite, below 0 or above 1,024",
            Self::AnswersFull => "fewer than 40 answer bytes are left for a command",
            Self::InvalidBuffers => "the stream is no multiple of 8 bytes or the result not 16",
        }
    }
}

/// The first refusal whose test fails, in the order of the list.
pub fn first_failure(tests: &[(bool, Refusal)]) -> Option<Refusal> {
    tests.iter().find(|test| !test.0).map(|test| test.1)
}

/// Refuses where the test fails.
pub fn require(test: bool, refusal: Refusal) -> Result<(), Refusal> {
    if test { Ok(()) } else { Err(refusal) }
}
