//! The byte formats that both sides read and write, and the calls over them.

use reference::answer::{ANSWER_BYTES, Answer};
use reference::evaluation::Evaluation;
use reference::fields::Reader;

/// t f64, w f64.
pub const POINT_BYTES: usize = 16;
/// number u8, found u8, six zero bytes, value f64, piece u64.
pub const EVALUATION_BYTES: usize = 24;
pub const POSITION_BYTES: usize = 8;
/// Where an answer has its piece.
pub const PIECE: usize = 32;
/// The answer and the position after it.
pub const SAMPLE_BYTES: usize = ANSWER_BYTES + POSITION_BYTES;

/// Request, thresholds, positions, room for the samples; how many were made.
pub type Sample = fn(&[u8], &[u8], &[u8], &mut [u8]) -> u64;

pub fn point(t: f64, w: f64) -> [u8; POINT_BYTES] {
    let mut out = [0; POINT_BYTES];
    out[..8].copy_from_slice(&t.to_le_bytes());
    out[8..].copy_from_slice(&w.to_le_bytes());
    out
}

pub fn read_position(bytes: &[u8]) -> u64 {
    Reader(bytes).u64()
}

pub fn evaluation(answer: &Evaluation) -> [u8; EVALUATION_BYTES] {
    let mut out = [0; EVALUATION_BYTES];
    out[0] = answer.number;
    out[1] = u8::from(answer.found);
    out[8..16].copy_from_slice(&answer.value.to_le_bytes());
    out[16..].copy_from_slice(&answer.piece.to_le_bytes());
    out
}

pub fn sample(answer: &Answer, position: u64) -> [u8; SAMPLE_BYTES] {
    let mut out = [0; SAMPLE_BYTES];
    out[..ANSWER_BYTES].copy_from_slice(&answer.to_bytes());
    out[ANSWER_BYTES..].copy_from_slice(&position.to_le_bytes());
    out
}
