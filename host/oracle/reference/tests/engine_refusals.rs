//! Refusals 2 to 16 of one command, their order, and what is accepted at the limits. That a refusal
//! changes nothing is tested with each of them.

mod common;

use common::{Engine, censored, constant, create, pause, remove, reschedule, resume};
use reference::command::{Command, Create, NAMES, Reschedule, width};
use reference::dump::dump_state;
use reference::fields::LIMIT;
use reference::refusal::Refusal;
use reference::request::CENSORED_CAUSE;

const BAD_TIMES: [f64; 5] = [f64::NAN, -0.0, -1.0, LIMIT.next_up(), f64::INFINITY];
const BAD_SIZES: [f64; 4] = [f64::NAN, -LIMIT.next_up(), LIMIT.next_up(), f64::INFINITY];

/// Clock 0 with cause 1, queued.
fn engine() -> Engine {
    let mut engine = Engine::open(&[2.0; 16], 4000);
    engine.accepts(&[create(10.0), constant(1, 0.5, 0.0), reschedule(0.0)]);
    engine
}

fn one_of_each() -> [Command; 8] {
    let set = constant(1, 0.5, 0.0);
    let (plan, again) = (reschedule(0.0), resume(0.0));
    let (undo, deliver) = (Command::Undo, Command::Deliver);
    [
        create(1.0),
        set,
        remove(1),
        plan,
        pause(1.0),
        again,
        deliver,
        undo,
    ]
}

#[test]
fn widths_of_the_table() {
    for (command, expected) in one_of_each().iter().zip([33, 156, 6, 23, 10, 23, 1, 1]) {
        let name = NAMES[usize::from(command.code())];
        assert_eq!(command.to_bytes().len(), expected, "{name}");
        assert_eq!(width(command.code()), Some(expected), "{name}");
        assert_eq!(Command::read(&command.to_bytes()), Ok(*command), "{name}");
    }
}

#[test]
fn refused_by_2_and_3() {
    assert_eq!(engine().give_bytes(&[]).number, 3);
    for code in [0, 9, 10, 18, 255] {
        assert_eq!(engine().give_bytes(&[code]).number, 2);
    }
    for command in one_of_each() {
        let bytes = command.to_bytes();
        for kept in 1..bytes.len() {
            assert_eq!(engine().give_bytes(&bytes[..kept]).number, 3);
        }
    }
}

#[test]
fn bytes_past_the_width_are_ignored() {
    for command in one_of_each() {
        let (mut exact, mut longer) = (engine(), engine());
        let mut bytes = command.to_bytes();
        let answer = exact.give(command);
        bytes.extend([0xEE; 40]);
        assert_eq!(longer.give_bytes(&bytes), answer);
        assert_eq!(dump_state(&longer.state), dump_state(&exact.state));
        assert_eq!(longer.journal, exact.journal);
    }
}

#[test]
fn refused_by_4() {
    let changes = [
        (|c| c.policy = 2) as fn(&mut Create),
        |c| c.tie = 3,
        |c| c.has_entity = 2,
        |c| c.entity_index = 1,
        |c| c.generation = 1,
    ];
    for change in changes {
        let mut create = Create::default();
        change(&mut create);
        assert_eq!(engine().number(Command::Create(create)), 4);
    }
    for (has_censor, censor) in [(2, 0.0), (0, 1.0), (0, -0.0)] {
        let operands = Reschedule {
            has_censor,
            censor,
            ..Reschedule::default()
        };
        assert_eq!(engine().number(Command::Reschedule(operands)), 4);
        assert_eq!(engine().number(Command::Resume(operands)), 4);
    }
    assert_eq!(number_of_changed_set(10, 5), 4);
    assert_eq!(number_of_changed_set(10, 0), 4);
}

/// The number for a SET with one byte replaced: byte 10 is the kind, 19 to 26 the time, 27 the
/// count, 28 the first pair.
fn number_of_changed_set(at: usize, byte: u8) -> u8 {
    let mut bytes = constant(1, 0.5, 0.0).to_bytes();
    bytes[at] = byte;
    engine().give_bytes(&bytes).number
}

#[test]
fn refused_by_5() {
    for bad in BAD_TIMES {
        for command in [
            constant(1, 0.5, bad),
            reschedule(bad),
            resume(bad),
            pause(bad),
        ] {
            assert_eq!(engine().number(command), 5, "{command:?}");
        }
        assert_eq!(engine().number(censored(0.0, bad)), 5);
    }
    for bad in BAD_SIZES {
        assert_eq!(engine().number(constant(1, bad, 0.0)), 5);
        assert_eq!(engine().number(create(bad)), 5);
    }
}

#[test]
fn refused_by_6() {
    assert_eq!(number_of_changed_set(27, 1), 6);
    assert_eq!(number_of_changed_set(28, 1), 6);
    assert_eq!(number_of_changed_set(155, 1), 6);
}

#[test]
fn refused_by_7() {
    for command in one_of_each().into_iter().filter(|c| c.clock().is_some()) {
        let mut bytes = command.to_bytes();
        bytes[1] = 16;
        assert_eq!(engine().give_bytes(&bytes).number, 7);
    }
    assert_eq!(engine().number(remove(CENSORED_CAUSE)), 7);
    assert_eq!(engine().number(constant(CENSORED_CAUSE, 0.5, 0.0)), 7);
}

#[test]
fn each_number_over_all_fields_before_the_next() {
    let mut bytes = constant(CENSORED_CAUSE, 0.5, 0.0).to_bytes();
    assert_eq!(engine().give_bytes(&bytes).number, 7);
    bytes[27] = 1;
    assert_eq!(engine().give_bytes(&bytes).number, 6);
    bytes[26] = 0x80;
    assert_eq!(engine().give_bytes(&bytes).number, 5);
    bytes[10] = 5;
    assert_eq!(engine().give_bytes(&bytes).number, 4);
}

#[test]
fn refused_by_8_and_9() {
    assert_eq!(engine().number(create(1.0)), 8);
    let mut empty = Engine::open(&[], 0);
    for command in one_of_each() {
        let expected = match command {
            Command::Create(_) => 14,
            Command::Deliver => 11,
            Command::Undo => 12,
            _ => 9,
        };
        assert_eq!(empty.number(command), expected, "{command:?}");
    }
}

#[test]
fn refused_by_10() {
    let mut engine = engine();
    for cause in 2..9 {
        engine.accepts(&[constant(cause, 0.5, 0.0)]);
    }
    assert_eq!(engine.number(constant(9, 0.5, 0.0)), 10);
    engine.accepts(&[constant(8, 0.5, 1.0), remove(3), constant(9, 0.5, 0.0)]);
    assert_eq!(engine.number(constant(3, 0.5, 0.0)), 10);
}

#[test]
fn refused_by_14_at_every_length_of_the_journal() {
    let commands = [
        create(10.0),
        constant(1, 0.5, 0.0),
        reschedule(0.0),
        Command::Deliver,
    ];
    let mut used = 0;
    for (at, command) in commands.iter().enumerate() {
        for free in 0..=command.width() {
            let mut engine = Engine::open(&[2.0], used + free);
            engine.accepts(&commands[..at]);
            let expected = if free < command.width() { 14 } else { 0 };
            assert_eq!(engine.number(*command), expected);
        }
        used += command.width();
    }
}

#[test]
fn refused_by_14_before_15_and_after_11() {
    let mut engine = Engine::open(&[], 33);
    engine.accepts(&[create(1.0)]);
    assert_eq!(engine.number(constant(1, 0.5, 0.0)), 14);
    assert_eq!(engine.number(Command::Deliver), 11);
    engine.accepts(&[Command::Undo, create(2.0)]);
}

#[test]
fn refused_by_15_and_16() {
    let mut engine = Engine::open(&[2.0], 4000);
    engine.accepts(&[create(1.0), constant(1, 0.5, 0.0)]);
    assert_eq!(engine.number(constant(2, 0.5, 0.0)), 15);
    engine.accepts(&[constant(1, 0.5, 4.0f64.next_down())]);
    assert_eq!(engine.number(constant(1, 0.5, 9.0)), 15);
    for bad in [f64::NAN, f64::INFINITY, -1.0, 1024.0f64.next_up()] {
        let mut engine = Engine::open(&[bad], 4000);
        engine.accepts(&[create(1.0)]);
        assert_eq!(engine.number(constant(1, 0.5, 0.0)), 16);
    }
    let mut engine = Engine::open(&[0.0, -0.0, 1024.0], 4000);
    engine.accepts(&[create(1.0)]);
    engine.accepts(&[1, 2, 3].map(|cause| constant(cause, 0.5, 0.0)));
}

/// SET of a present cause whose threshold is not reached draws under Restart alone.
#[test]
fn no_draw_is_due_where_the_residual_is_kept() {
    for (policy, expected) in [(0, 15), (1, 0)] {
        let mut engine = Engine::open(&[2.0], 4000);
        engine.accepts(&[
            Command::Create(Create {
                policy,
                ..Create::default()
            }),
            constant(1, 0.5, 0.0),
        ]);
        assert_eq!(engine.number(constant(1, 0.5, 1.0)), expected);
    }
}

#[test]
fn numbers_and_meanings() {
    let numbers = Refusal::ALL.map(Refusal::number);
    assert_eq!(numbers.to_vec(), (1..=18).collect::<Vec<u8>>());
    assert!(Refusal::ALL.iter().all(|r| !r.meaning().is_empty()));
}
