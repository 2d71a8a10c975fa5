//! What a program asks of a state, as the library returns it. Where there is no such thing `found` is false and all is zero.

/// Numbers in a row of a state.
pub const ROW: usize = 8;

/// Rows of words in a state.
pub const STATE_WORD_ROWS: usize = 177;

/// Rows of floats in a state.
pub const STATE_FLOAT_ROWS: usize = 400;

/// What a state counts.
#[repr(C)]
#[derive(Clone, Copy, Debug, Default, PartialEq)]
pub struct Counts {
    /// Requests in the queue.
    pub queued: u64,
    /// Requests made by the applied commands, which is the next one's index.
    pub requests_made: u64,
    /// Thresholds drawn by the applied commands.
    pub draw_position: u64,
    /// Bytes of the applied commands.
    pub applied_length: u64,
}

/// A queued request.
#[repr(C)]
#[derive(Clone, Copy, Debug, Default, PartialEq)]
pub struct Request {
    /// Whether there is one.
    pub found: bool,
    /// Its clock.
    pub clock: u64,
    /// Its priority; among requests at the same tick the higher one is delivered first.
    pub priority: i32,
    /// How many requests were made before it.
    pub index: u64,
    /// Its time in ticks, the lower 64 bits.
    pub ticks_low: u64,
    /// The upper 64 bits.
    pub ticks_high: u64,
}

/// A clock.
#[repr(C)]
#[derive(Clone, Copy, Debug, Default, PartialEq)]
pub struct Clock {
    /// Whether it is present.
    pub found: bool,
    /// Whether it has an entity.
    pub has_entity: bool,
    /// Whether it runs.
    pub is_active: bool,
    /// Whether it has a request in the queue.
    pub has_event: bool,
    /// Whether it has a winner.
    pub has_winner: bool,
    /// 0 restart, 1 retain residual.
    pub policy: u8,
    /// 0 lowest cause, 1 highest cause, 2 explicit priority.
    pub tie: u8,
    /// The piece of the winner's rate curve; 0 where it is censored and where there is no winner.
    pub winner_piece: u8,
    /// The generation of its entity.
    pub generation: u32,
    /// The winner's cause; all bits set where it is censored.
    pub winner_cause: u32,
    /// Its process.
    pub process: u64,
    /// The index of its entity.
    pub entity_index: u64,
    /// How many causes it has.
    pub causes: u64,
    /// The index of its request.
    pub event_index: u64,
    /// Ticks for one unit of time.
    pub scale: f64,
    /// The winner's time.
    pub winner_time: f64,
    /// The time at which it was last rescheduled, paused or resumed.
    pub last_update: f64,
}

/// A cause of a clock.
#[repr(C)]
#[derive(Clone, Copy, Debug, Default, PartialEq)]
pub struct Cause {
    /// Whether there is one.
    pub found: bool,
    /// Its hazard's kind: 0 Zero, 1 Constant, 2 Gompertz with b = 0, 3 PiecewiseConstant, 4 Weibull with shape 2.
    pub kind: u8,
    /// Its number.
    pub cause: u32,
    /// Its priority in ties.
    pub priority: u32,
    /// How many pairs of its hazard are used.
    pub pairs: u64,
    /// The hazard's own rate: nothing, the rate, eta, the rate after the last pair; of Weibull the scale.
    pub rate: f64,
    /// How much hazard is used up, counted up to the interval's start.
    pub accumulated: f64,
    /// How much may be used up before the event comes.
    pub threshold: f64,
    /// The time from which hazard is not counted yet.
    pub interval_start: f64,
    /// The pairs' ends.
    pub ends: [f64; ROW],
    /// The pairs' rates.
    pub rates: [f64; ROW],
}
