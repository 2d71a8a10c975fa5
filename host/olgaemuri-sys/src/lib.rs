//! The nine functions of libolgaemuri.a (`tools/staticlib olgaemuri`), declared once, and a safe call over each. The only file with
//! `unsafe`.
//!
//! [`open`] and [`execute`] are an engine that stays open in its caller's memory, one input at a time; [`applied`], [`counts`],
//! [`request`], [`clock`] and [`cause`] tell what it holds. [`run`] answers a whole list by an engine of its own.
//!
//! Most callers want the crate `olgaemuri`, which has typed commands and answers. `include/olgaemuri.h` is for C and C++.

#![deny(missing_docs)]

mod state;

pub use state::{Cause, Clock, Counts, ROW, Request, STATE_FLOAT_ROWS, STATE_WORD_ROWS};

/// Bytes of one answer.
pub const ANSWER_BYTES: usize = 40;

/// Bytes of the result: commands answered and bytes read, a little-endian u64 each.
pub const RESULT_BYTES: usize = 16;

/// Bytes of one recorded threshold, a little-endian f64.
pub const THRESHOLD_BYTES: usize = 8;

/// The functions as the library exports them. Each slice is a pointer and a length: of bytes in bytes, of rows in rows.
///
/// # Safety
///
/// Each pointer is not null, is aligned and stands at the front of as many bytes or rows as its length says. Nobody else reads or
/// writes during the call what is behind a `*mut`, nobody writes what is behind a `*const`, and nothing behind a `*mut` overlaps
/// anything else that the call is given.
pub mod raw {
    use crate::state::{Cause, Clock, Counts, ROW, Request};

    unsafe extern "C" {
        /// The batch run.
        pub fn olgaemuri_run(
            commands: *const u8,
            commands_len: usize,
            stream: *const u8,
            stream_len: usize,
            journal: *mut u8,
            journal_len: usize,
            answers: *mut u8,
            answers_len: usize,
            result: *mut u8,
            result_len: usize,
        ) -> u8;

        /// Opening.
        pub fn olgaemuri_open(
            words: *mut [u64; ROW],
            word_rows: usize,
            floats: *mut [f64; ROW],
            float_rows: usize,
            journal: *mut u8,
            journal_len: usize,
        ) -> u8;

        /// One input.
        pub fn olgaemuri_execute(
            words: *mut [u64; ROW],
            word_rows: usize,
            floats: *mut [f64; ROW],
            float_rows: usize,
            stream: *const u8,
            stream_len: usize,
            journal: *mut u8,
            journal_len: usize,
            input: *const u8,
            input_len: usize,
            answer: *mut u8,
            answer_len: usize,
        ) -> u8;

        /// The length of the applied commands, written to `length` whatever is returned.
        pub fn olgaemuri_applied(
            words: *const [u64; ROW],
            word_rows: usize,
            journal_len: usize,
            length: *mut u64,
        ) -> u8;

        /// The counts.
        pub fn olgaemuri_counts(words: *const [u64; ROW], word_rows: usize) -> Counts;

        /// A queued request.
        pub fn olgaemuri_request(
            words: *const [u64; ROW],
            word_rows: usize,
            place: usize,
        ) -> Request;

        /// A clock.
        pub fn olgaemuri_clock(
            words: *const [u64; ROW],
            word_rows: usize,
            floats: *const [f64; ROW],
            float_rows: usize,
            clock: usize,
        ) -> Clock;

        /// A cause of a clock.
        pub fn olgaemuri_cause(
            words: *const [u64; ROW],
            word_rows: usize,
            floats: *const [f64; ROW],
            float_rows: usize,
            clock: usize,
            place: usize,
        ) -> Cause;

        /// The rate for a wait, written to `rate` whatever is returned.
        pub fn olgaemuri_rate_for_wait(threshold: f64, wait: f64, rate: *mut f64) -> u8;
    }
}

/// Opens an engine, answers the commands one after another and returns the number that ended the run.
///
/// 0 is the list's end; 2 or 3, answered and counted, an input that is no whole command; 17, too few answer bytes for the next
/// command, which is not done; 18, with nothing written, a `stream` that is no multiple of 8 bytes or a `result` that is not 16.
pub fn run(
    commands: &[u8],
    stream: &[u8],
    journal: &mut [u8],
    answers: &mut [u8],
    result: &mut [u8],
) -> u8 {
    // SAFETY: every pointer comes from a slice and stands with its length; the three written buffers are ours alone.
    unsafe {
        raw::olgaemuri_run(
            commands.as_ptr(),
            commands.len(),
            stream.as_ptr(),
            stream.len(),
            journal.as_mut_ptr(),
            journal.len(),
            answers.as_mut_ptr(),
            answers.len(),
            result.as_mut_ptr(),
            result.len(),
        )
    }
}

/// Opens an engine in these rows, whatever they held: no clock, nothing queued, a journal filled with zero.
///
/// 0; or 1, with nothing changed, where there are not [`STATE_WORD_ROWS`] and [`STATE_FLOAT_ROWS`] rows.
pub fn open(words: &mut [[u64; ROW]], floats: &mut [[f64; ROW]], journal: &mut [u8]) -> u8 {
    // SAFETY: every pointer comes from a slice and stands with its length; all three are ours alone.
    unsafe {
        raw::olgaemuri_open(
            words.as_mut_ptr(),
            words.len(),
            floats.as_mut_ptr(),
            floats.len(),
            journal.as_mut_ptr(),
            journal.len(),
        )
    }
}

/// Executes one input, a command, UNDO or bytes that are none, and writes its answer to the first [`ANSWER_BYTES`] of `answer`.
///
/// Returns the answer's number; 17, with nothing done and nothing written, where `answer` is shorter. Each call is given the same
/// stream, and the rows and the journal that the call before left; rows that are no valid state are refused by 1. Bytes past the
/// command's width are ignored.
pub fn execute(
    words: &mut [[u64; ROW]],
    floats: &mut [[f64; ROW]],
    stream: &[u8],
    journal: &mut [u8],
    input: &[u8],
    answer: &mut [u8],
) -> u8 {
    // SAFETY: every pointer comes from a slice and stands with its length; the four that are written are ours alone.
    unsafe {
        raw::olgaemuri_execute(
            words.as_mut_ptr(),
            words.len(),
            floats.as_mut_ptr(),
            floats.len(),
            stream.as_ptr(),
            stream.len(),
            journal.as_mut_ptr(),
            journal.len(),
            input.as_ptr(),
            input.len(),
            answer.as_mut_ptr(),
            answer.len(),
        )
    }
}

/// The number, and how many bytes at the front of a journal of this length are the applied commands.
///
/// The number is 0; or 1, with length 0, where the rows are not [`STATE_WORD_ROWS`] or the length is above the journal's.
#[must_use]
pub fn applied(words: &[[u64; ROW]], journal_length: usize) -> (u8, u64) {
    let mut length = 0;
    // SAFETY: the rows come from a slice and stand with their number; the length is our own.
    let number =
        unsafe { raw::olgaemuri_applied(words.as_ptr(), words.len(), journal_length, &mut length) };
    (number, length)
}

/// What the state counts; all zero in rows of another number.
#[must_use]
pub fn counts(words: &[[u64; ROW]]) -> Counts {
    // SAFETY: the rows come from a slice and stand with their number.
    unsafe { raw::olgaemuri_counts(words.as_ptr(), words.len()) }
}

/// The request at a place of the queue, in the order in which they were made.
#[must_use]
pub fn request(words: &[[u64; ROW]], place: usize) -> Request {
    // SAFETY: the rows come from a slice and stand with their number.
    unsafe { raw::olgaemuri_request(words.as_ptr(), words.len(), place) }
}

/// The clock with this number.
#[must_use]
pub fn clock(words: &[[u64; ROW]], floats: &[[f64; ROW]], clock: usize) -> Clock {
    // SAFETY: the rows come from slices and stand with their numbers.
    unsafe {
        raw::olgaemuri_clock(
            words.as_ptr(),
            words.len(),
            floats.as_ptr(),
            floats.len(),
            clock,
        )
    }
}

/// The cause at a place of a clock, by ascending number.
#[must_use]
pub fn cause(words: &[[u64; ROW]], floats: &[[f64; ROW]], clock: usize, place: usize) -> Cause {
    // SAFETY: the rows come from slices and stand with their numbers.
    unsafe {
        raw::olgaemuri_cause(
            words.as_ptr(),
            words.len(),
            floats.as_ptr(),
            floats.len(),
            clock,
            place,
        )
    }
}

/// The number, and the smallest rate above 0 and at most 2^40 for which `threshold / rate` is `wait` to the last bit.
///
/// The number is 0 where there is such a rate; 24, none; 23, a `threshold` that is not above 0 and at most 1,024, or a `wait` that
/// is not from 2^-40 to 2^40, NaN among them. With 23 and 24 the rate is 0.0.
#[must_use]
pub fn rate_for_wait(threshold: f64, wait: f64) -> (u8, f64) {
    let mut rate = 0.0;
    // SAFETY: the pointer is that of a float of our own.
    let number = unsafe { raw::olgaemuri_rate_for_wait(threshold, wait, &mut rate) };
    (number, rate)
}
