//! A state in lent memory: its sizes, the layout of what is asked of it, and what is refused.

mod compiled;

use compiled::{below, output};
use olgaemuri_sys::{
    ANSWER_BYTES, Cause, Clock, Counts, ROW, Request, STATE_FLOAT_ROWS, STATE_WORD_ROWS, applied,
    cause, clock, counts, execute, open, request,
};
use std::fmt::Write;
use std::mem::{offset_of, size_of};

const DELIVER: u8 = 7;
const QUEUE_EMPTY: u8 = 11;
const INVALID_STATE: u8 = 1;
const ANSWERS_FULL: u8 = 17;

/// Rows and a journal, all filled with what no engine would write.
#[derive(Clone, PartialEq, Debug)]
struct Lent {
    words: Vec<[u64; ROW]>,
    floats: Vec<[f64; ROW]>,
    journal: Vec<u8>,
}

impl Lent {
    fn of(word_rows: usize, float_rows: usize) -> Self {
        Self {
            words: vec![[2; ROW]; word_rows],
            floats: vec![[0.5; ROW]; float_rows],
            journal: vec![0x5a; 40],
        }
    }

    fn open(&mut self) -> u8 {
        open(&mut self.words, &mut self.floats, &mut self.journal)
    }

    fn opened() -> Self {
        let mut lent = Self::of(STATE_WORD_ROWS, STATE_FLOAT_ROWS);
        assert_eq!(lent.open(), 0);
        lent
    }

    fn execute(&mut self, input: &[u8], answer: &mut [u8]) -> u8 {
        let Self {
            words,
            floats,
            journal,
        } = self;
        execute(words, floats, &[], journal, input, answer)
    }

    /// The number of one input's answer, which is the one returned.
    fn number(&mut self, input: &[u8]) -> u8 {
        let mut answer = [0xa5; ANSWER_BYTES];
        let number = self.execute(input, &mut answer);
        assert_eq!(answer[0], number);
        number
    }
}

/// CREATE of this clock, with neither process nor entity.
fn create(clock: u8) -> [u8; 33] {
    let mut bytes = [0; 33];
    (bytes[0], bytes[1], bytes[10]) = (1, clock, 1);
    bytes[12..20].copy_from_slice(&4.0_f64.to_le_bytes());
    bytes
}

#[test]
fn the_sizes_are_those_of_the_code() {
    for word_rows in [
        0,
        1,
        STATE_WORD_ROWS - 1,
        STATE_WORD_ROWS,
        STATE_WORD_ROWS + 1,
    ] {
        for float_rows in [
            0,
            1,
            STATE_FLOAT_ROWS - 1,
            STATE_FLOAT_ROWS,
            STATE_FLOAT_ROWS + 1,
        ] {
            let sized = (word_rows, float_rows) == (STATE_WORD_ROWS, STATE_FLOAT_ROWS);
            let mut lent = Lent::of(word_rows, float_rows);
            let before = lent.clone();
            assert_eq!(lent.open(), if sized { 0 } else { INVALID_STATE });
            assert_eq!(lent == before, !sized);
            if word_rows != STATE_WORD_ROWS {
                assert_eq!(counts(&lent.words), Counts::default());
            }
            if !sized {
                assert_eq!(lent.number(&[DELIVER]), INVALID_STATE);
                assert_eq!(lent, before);
            }
        }
    }
}

#[test]
fn an_opened_state_and_its_journal() {
    let lent = Lent::opened();
    assert_eq!(lent.words, [[0; ROW]; STATE_WORD_ROWS]);
    assert_eq!(lent.journal, [0; 40]);
    let (number, length) = applied(&lent.words, 0);
    assert_eq!((number, length), (0, 0));
    assert!((0..17).all(|number| !clock(&lent.words, &lent.floats, number).found));
    assert!((0..17).all(|place| !request(&lent.words, place).found));
}

#[test]
fn an_answer_that_is_too_short_is_refused_by_17() {
    let mut lent = Lent::opened();
    let opened = lent.clone();
    for length in 0..ANSWER_BYTES {
        let mut answer = vec![0xa5; length];
        assert_eq!(lent.execute(&create(0), &mut answer), ANSWERS_FULL);
        assert!(answer.iter().all(|byte| *byte == 0xa5));
        assert_eq!(lent, opened);
    }
    let mut answer = [0xa5; ANSWER_BYTES + 1];
    assert_eq!(lent.execute(&[DELIVER], &mut answer), QUEUE_EMPTY);
    assert_eq!(answer[1..ANSWER_BYTES], [0; ANSWER_BYTES - 1]);
    assert_eq!(answer[ANSWER_BYTES], 0xa5);
}

#[test]
fn bytes_past_the_width_are_ignored_and_the_journal_has_the_command_alone() {
    let mut lent = Lent::opened();
    let input = [&create(3)[..], &[0xff; 200]].concat();
    assert_eq!(lent.number(&input), 0);
    assert_eq!(lent.journal[..33], create(3));
    assert_eq!(lent.journal[33..], [0; 7]);
    assert_eq!(applied(&lent.words, 40), (0, 33));
    assert_eq!(applied(&lent.words, 33), (0, 33));
    assert_eq!(applied(&lent.words, 32), (INVALID_STATE, 0));
    let found = clock(&lent.words, &lent.floats, 3);
    let expected = Clock {
        found: true,
        policy: 1,
        scale: 4.0,
        ..Clock::default()
    };
    assert_eq!(found, expected);
    assert_eq!(cause(&lent.words, &lent.floats, 3, 0), Cause::default());
    assert_eq!(lent.number(&[8]), 0);
    assert_eq!(lent, Lent::opened());
}

/// What the C header's structs are, by the Rust ones.
fn layout() -> String {
    let mut text = String::new();
    let mut line = |name: &str, place: usize| writeln!(text, "{name} {place}").expect("a string");
    macro_rules! layout {
        ($type:ident, $name:literal: $($field:ident)*) => {
            line($name, size_of::<$type>());
            $(line(concat!($name, ".", stringify!($field)), offset_of!($type, $field));)*
        };
    }
    layout!(Counts, "counts": queued requests_made draw_position applied_length);
    layout!(Request, "request": found clock priority index ticks_low ticks_high);
    layout!(Clock, "clock": found has_entity is_active has_event has_winner policy tie winner_piece generation winner_cause process
        entity_index causes event_index scale winner_time last_update);
    layout!(Cause, "cause": found kind cause priority pairs rate accumulated threshold interval_start ends rates);
    let words = STATE_WORD_ROWS * size_of::<[u64; ROW]>();
    line("state", words + STATE_FLOAT_ROWS * size_of::<[f64; ROW]>());
    line("state.words", 0);
    line("state.floats", words);
    text
}

#[test]
fn c_and_rust_lay_the_structs_out_alike() {
    let printed = output("gcc", &["-std=c99"], &below("tests/c/layout.c"), "layout");
    assert_eq!(printed, layout());
}
