//! The lengths of the buffers: 17, 18, and what stays untouched.

use olgaemuri_sys::{ANSWER_BYTES, RESULT_BYTES, run};

const DELIVER: u8 = 7;
const QUEUE_EMPTY: u8 = 11;

/// Buffers that hold other bytes than the engine would write, and the number returned.
struct Ran {
    number: u8,
    journal: Vec<u8>,
    answers: Vec<u8>,
    result: Vec<u8>,
}

fn ran(commands: &[u8], stream: usize, answers: usize, result: usize) -> Ran {
    let (mut journal, mut answers, mut result) =
        (vec![0x5a; 40], vec![0xa5; answers], vec![0xc3; result]);
    let stream = vec![0; stream];
    let number = run(commands, &stream, &mut journal, &mut answers, &mut result);
    Ran {
        number,
        journal,
        answers,
        result,
    }
}

fn result(answered: u64, read: u64) -> Vec<u8> {
    [answered.to_le_bytes(), read.to_le_bytes()].concat()
}

fn refused_answer(number: u8) -> Vec<u8> {
    let mut bytes = vec![0; ANSWER_BYTES];
    bytes[0] = number;
    bytes
}

#[test]
fn too_few_answer_bytes_end_the_run_with_17() {
    for answers in 0..3 * ANSWER_BYTES {
        let ran = ran(&[DELIVER; 3], 8, answers, RESULT_BYTES);
        let answered = answers / ANSWER_BYTES;
        assert_eq!(ran.number, 17);
        assert_eq!(ran.result, result(answered as u64, answered as u64));
        let (written, untouched) = ran.answers.split_at(answered * ANSWER_BYTES);
        assert_eq!(written, refused_answer(QUEUE_EMPTY).repeat(answered));
        assert!(untouched.iter().all(|byte| *byte == 0xa5));
        assert!(ran.journal.iter().all(|byte| *byte == 0));
    }
}

#[test]
fn enough_answer_bytes_reach_the_end() {
    let ran = ran(&[DELIVER; 3], 8, 3 * ANSWER_BYTES + 1, RESULT_BYTES);
    assert_eq!(ran.number, 0);
    assert_eq!(ran.result, result(3, 3));
    assert_eq!(ran.answers[3 * ANSWER_BYTES], 0xa5);
}

#[test]
fn a_journal_of_any_length_is_opened_between_bytes_that_stay() {
    let parts = (0..8).flat_map(|place| (0..=17).map(move |length| place..place + length));
    for part in parts {
        let (mut space, mut result) = ([0x5a; 32], [0xc3; RESULT_BYTES]);
        let journal = &mut space[part.clone()];
        assert_eq!(run(&[], &[], journal, &mut [], &mut result), 0);
        assert_eq!(result, [0; RESULT_BYTES]);
        for (place, byte) in space.into_iter().enumerate() {
            let due = if part.contains(&place) { 0 } else { 0x5a };
            assert_eq!(byte, due, "{part:?}: {place}");
        }
    }
}

#[test]
fn other_lengths_are_refused_by_18_and_nothing_is_written() {
    let lengths = (0..=24).flat_map(|stream| (0..=24).map(move |result| (stream, result)));
    for (stream, result) in lengths {
        let ran = ran(&[DELIVER], stream, ANSWER_BYTES, result);
        let usable = stream % 8 == 0 && result == RESULT_BYTES;
        assert_eq!(ran.number == 18, !usable, "{stream} {result}");
        if !usable {
            assert!(ran.journal.iter().all(|byte| *byte == 0x5a));
            assert!(ran.answers.iter().all(|byte| *byte == 0xa5));
            assert!(ran.result.iter().all(|byte| *byte == 0xc3));
        }
    }
}

#[test]
fn an_input_that_is_no_command_is_answered_and_ends_the_run() {
    for (input, number) in [(&[9, 7][..], 2), (&[0, 7], 2), (&[5, 0], 3)] {
        let commands = [&[DELIVER][..], input].concat();
        let ran = ran(&commands, 0, 3 * ANSWER_BYTES, RESULT_BYTES);
        assert_eq!(ran.number, number);
        assert_eq!(ran.result, result(2, 1));
        assert_eq!(
            ran.answers[ANSWER_BYTES..2 * ANSWER_BYTES],
            refused_answer(number)
        );
        assert!(
            ran.answers[2 * ANSWER_BYTES..]
                .iter()
                .all(|byte| *byte == 0xa5)
        );
    }
}
