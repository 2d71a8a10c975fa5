//! Answers from bytes and back.

mod common;

use common::Random;
use olgaemuri::{ANSWER_BYTES, Answer, Refusal};

#[test]
fn every_answer_comes_back_from_its_bytes() {
    let mut random = Random(3);
    for _ in 0..20_000 {
        let mut answer = Answer::default();
        answer.refusal = Refusal::from_number(random.below(19) as u8);
        answer.event = random.flip();
        answer.censored = random.flip();
        answer.withdrawn = random.flip();
        answer.cause = random.word() as u32;
        answer.delta = random.any_float();
        answer.ticks = u128::from(random.word()) << 64 | u128::from(random.word());
        answer.piece = random.word() as u8;
        let bytes = answer.to_bytes();
        let back = Answer::from_bytes(&bytes).expect("an answer's own bytes");
        assert_eq!(back.to_bytes(), bytes);
        assert_eq!(format!("{back:?}"), format!("{answer:?}"));
    }
}

#[test]
fn layout_of_row_9() {
    let answer = common::row_9().run().steps[2].answer;
    let mut expected = [0; ANSWER_BYTES];
    expected[1] = 1;
    expected[4] = 1;
    expected[14..17].copy_from_slice(&[0x10, 0x40, 0x28]);
    assert_eq!(answer.to_bytes(), expected);
    let mut scheduled = Answer::default();
    (scheduled.event, scheduled.cause) = (true, 1);
    (scheduled.delta, scheduled.ticks) = (4.0, 40);
    assert_eq!(Answer::from_bytes(&expected), Some(scheduled));
    assert_eq!(answer, scheduled);
    assert!(answer.is_accepted());
}

#[test]
fn ticks_are_low_then_high() {
    let mut bytes = [0; ANSWER_BYTES];
    (bytes[16], bytes[24]) = (5, 1);
    let answer = Answer::from_bytes(&bytes).expect("an answer");
    assert_eq!(answer.ticks, (1 << 64) + 5);
}

#[test]
fn the_piece_is_byte_32() {
    let mut bytes = [0; ANSWER_BYTES];
    bytes[32] = 255;
    let answer = Answer::from_bytes(&bytes).expect("an answer");
    assert_eq!((answer.piece, answer.ticks), (255, 0));
    for at in 33..ANSWER_BYTES {
        let mut more = bytes;
        more[at] = 1;
        assert_eq!(Answer::from_bytes(&more), None, "{at}");
    }
}

#[test]
fn bytes_that_are_no_answer() {
    for (at, byte) in [
        (0, 19),
        (0, 23),
        (0, 24),
        (0, 255),
        (1, 2),
        (2, 2),
        (3, 255),
    ] {
        let mut bytes = [0; ANSWER_BYTES];
        bytes[at] = byte;
        assert_eq!(Answer::from_bytes(&bytes), None);
    }
}

#[test]
fn answers_in_words() {
    let mut session = common::row_9();
    session.extend([common::reschedule(1.0), olgaemuri::Command::Undo]);
    session.push(common::create(olgaemuri::Policy::Restart));
    let words: Vec<String> = session.run().answers().map(ToString::to_string).collect();
    let expected = [
        "accepted",
        "accepted",
        "accepted, cause 1 after 4 at tick 40",
        "accepted, withdrawn, cause 1 after 4 at tick 50",
        "accepted",
        "refused by 8: the clock is there already",
    ];
    assert_eq!(words, expected);
    let mut answer = Answer::default();
    (answer.event, answer.cause, answer.piece) = (true, 7, 2);
    (answer.delta, answer.ticks) = (6.0, 60);
    let words = "accepted, cause 7 after 6 at tick 60 in piece 2";
    assert_eq!(answer.to_string(), words);
}
