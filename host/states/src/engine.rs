//! The engine's calls on a state in rows.

use crate::rows::Rows;
use olgaemuri_sys::ANSWER_BYTES;

/// An engine opened in the rows, and its journal filled; the number.
pub fn open(rows: &mut Rows, journal: &mut [u8]) -> u8 {
    olgaemuri_sys::open(&mut rows.words, &mut rows.floats, journal)
}

/// One input; the rows then hold the state after it. Its answer.
pub fn execute(
    rows: &mut Rows,
    stream: &[u8],
    journal: &mut [u8],
    input: &[u8],
) -> [u8; ANSWER_BYTES] {
    let mut answer = [0xFF; ANSWER_BYTES];
    let number = olgaemuri_sys::execute(
        &mut rows.words,
        &mut rows.floats,
        stream,
        journal,
        input,
        &mut answer,
    );
    assert_eq!(number, answer[0], "the returned number is the answer's");
    answer
}

/// The applied commands, and the number that they are given with.
pub fn applied<'a>(rows: &Rows, journal: &'a [u8]) -> (u8, &'a [u8]) {
    let (number, length) = olgaemuri_sys::applied(&rows.words, journal.len());
    (number, &journal[..length as usize])
}
