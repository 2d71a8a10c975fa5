//! The batch run: how it ends, and every byte that it leaves.

mod common;

use common::{constant, create, pause, reschedule};
use reference::answer::ANSWER_BYTES;
use reference::batch::run;
use reference::command::Command;

/// What a run returned and left, the buffers having held A5, 5A and C3 before.
struct Run {
    number: u8,
    answers: Vec<u8>,
    journal: Vec<u8>,
    result: Vec<u8>,
}

fn run_with(commands: &[u8], stream: &[u8], answers: usize, result: usize) -> Run {
    let (mut answers, mut journal) = (vec![0xA5; answers], vec![0x5A; 300]);
    let mut result = vec![0xC3; result];
    let number = run(commands, stream, &mut journal, &mut answers, &mut result);
    Run {
        number,
        answers,
        journal,
        result,
    }
}

fn list() -> Vec<u8> {
    [create(10.0), constant(1, 0.5, 0.0), reschedule(0.0)]
        .map(|command| command.to_bytes())
        .concat()
}

fn result(answered: u64, read: u64) -> Vec<u8> {
    [answered.to_le_bytes(), read.to_le_bytes()].concat()
}

#[test]
fn a_whole_list() {
    let done = run_with(&list(), &2.0f64.to_le_bytes(), 3 * ANSWER_BYTES + 4, 16);
    assert_eq!((done.number, done.result), (0, result(3, 212)));
    let (first, last) = done.answers.split_at(2 * ANSWER_BYTES);
    assert_eq!(first, [0; 2 * ANSWER_BYTES]);
    assert_eq!(last[..5], [0, 1, 0, 0, 1]);
    assert_eq!(last[ANSWER_BYTES..], [0xA5; 4]);
    assert_eq!(done.journal[..212], list());
    assert_eq!(done.journal[212..], [0; 88]);
}

#[test]
fn an_empty_list() {
    let done = run_with(&[], &[], 0, 16);
    assert_eq!((done.number, done.result), (0, result(0, 0)));
    assert_eq!(done.journal, [0; 300]);
}

#[test]
fn ends_by_2_and_3() {
    let room = 5 * ANSWER_BYTES;
    let end = |tail: &[u8]| run_with(&[&list(), tail].concat(), &2.0f64.to_le_bytes(), room, 16);
    for (tail, number) in [(&[9, 1, 1][..], 2), (&[1, 0], 3), (&[5; 9], 3)] {
        let done = end(tail);
        assert_eq!((done.number, done.result), (number, result(4, 212)));
        let answers: Vec<&[u8]> = done.answers.chunks(ANSWER_BYTES).collect();
        assert_eq!(answers[3][0], number);
        assert_eq!(answers[3][1..], [0; ANSWER_BYTES - 1]);
        assert_eq!(answers[4], [0xA5; ANSWER_BYTES]);
    }
}

/// Refusals other than 2 and 3 add their command's width to the bytes read.
#[test]
fn other_refusals_go_on() {
    let commands = [pause(1.0), Command::Undo, Command::Deliver, create(1.0)];
    let bytes = commands.map(|command| command.to_bytes()).concat();
    let done = run_with(&bytes, &[], 4 * ANSWER_BYTES, 16);
    assert_eq!((done.number, done.result), (0, result(4, 45)));
    let answers = done.answers.chunks(ANSWER_BYTES);
    let numbers: Vec<u8> = answers.map(|answer| answer[0]).collect();
    assert_eq!(numbers, [9, 12, 11, 0]);
}

#[test]
fn refused_by_17_at_every_length_of_the_answers() {
    for length in 0..3 * ANSWER_BYTES {
        let done = run_with(&list(), &2.0f64.to_le_bytes(), length, 16);
        let answered = length / ANSWER_BYTES;
        let read = [0, 33, 189][answered];
        assert_eq!(
            (done.number, done.result),
            (17, result(answered as u64, read))
        );
        assert_eq!(done.journal[..read as usize], list()[..read as usize]);
        assert!(done.journal[read as usize..].iter().all(|byte| *byte == 0));
        assert!(
            done.answers[answered * ANSWER_BYTES..]
                .iter()
                .all(|byte| *byte == 0xA5)
        );
    }
    assert_eq!(run_with(&[0], &[], ANSWER_BYTES - 1, 16).number, 17);
}

#[test]
fn refused_by_18_with_nothing_written() {
    let lengths = (0..33).filter(|length| *length != 16);
    let results = lengths.map(|length| (8, length));
    let streams = [1, 7, 9, 15].map(|length| (length, 16));
    for (stream, length) in results.chain(streams).chain([(1, 0)]) {
        for commands in [list(), vec![], vec![0]] {
            let done = run_with(&commands, &vec![0; stream], 40, length);
            assert_eq!(done.number, 18);
            assert_eq!(done.answers, [0xA5; 40]);
            assert_eq!(done.journal, [0x5A; 300]);
            assert_eq!(done.result, vec![0xC3; length]);
        }
    }
}
