//! Chosen sessions that are refused: each refusal of a command, ends of a run, buffers of every
//! awkward length.

use crate::chosen_histories::{constant, create, pause, remove, reschedule, resume};
use crate::chosen_sessions::{of, session, table_clock};
use crate::sessions::Session;
use reference::answer::ANSWER_BYTES;
use reference::command::{Command, Create};

pub fn sessions() -> Vec<Session> {
    let mut all = vec![refusals()];
    all.extend(bad_thresholds());
    all.extend(ends());
    all.extend(lengths());
    all.extend(journals());
    all
}

/// 12, 11, 9, 4, 5, 7, 8, 6, 10, 15, 14, then 2.
fn refusals() -> Session {
    let bytes = |command: Command| command.to_bytes();
    let changed = |command: Command, at: usize, byte: u8| {
        let mut bytes = command.to_bytes();
        bytes[at] = byte;
        bytes
    };
    let mut inputs = vec![
        bytes(Command::Undo),
        bytes(Command::Deliver),
        bytes(remove(1)),
        changed(table_clock(), 10, 2),
        changed(table_clock(), 19, 0xFF),
        changed(pause(1.0), 1, 16),
        bytes(table_clock()),
        bytes(table_clock()),
        changed(constant(1, 0.5, 0.0), 27, 1),
    ];
    inputs.extend((0..9).map(|cause| bytes(constant(cause, 0.5, 0.0))));
    let last = [
        Command::Undo,
        constant(9, 0.5, 0.0),
        remove(9),
        constant(9, 0.5, 0.0),
    ];
    inputs.extend(last.map(bytes));
    inputs.extend([
        bytes(reschedule(0.0)),
        bytes(constant(9, 0.5, 0.0)),
        vec![0xFF, 1],
    ]);
    session(&[1.0; 8], 1450, &inputs)
}

/// A threshold that a draw refuses, first and after others.
fn bad_thresholds() -> Vec<Session> {
    let bad = [f64::NAN, f64::INFINITY, -1.0, 1024.0f64.next_up()];
    let set = |cause| constant(cause, 0.5, 0.0);
    let commands = [
        table_clock(),
        set(1),
        set(2),
        Command::Undo,
        set(3),
        reschedule(0.0),
    ];
    let first = bad.map(|w| of(&[w, 1.0], &commands));
    let second = bad.map(|w| of(&[1.0, w], &commands));
    first.into_iter().chain(second).collect()
}

/// Ends of a run: unknown codes, cut commands, nothing at all.
fn ends() -> Vec<Session> {
    let mut all = vec![session(&[], 0, &[]), session(&[1.0], 9, &[])];
    for code in [0, 9, 18, 255] {
        all.push(session(&[], 60, &[table_clock().to_bytes(), vec![code, 7]]));
    }
    let commands = [
        table_clock(),
        constant(1, 0.5, 0.0),
        remove(1),
        reschedule(0.0),
        pause(1.0),
        resume(1.0),
    ];
    for command in commands {
        let bytes = command.to_bytes();
        for kept in [1, bytes.len() - 1] {
            let cut = bytes[..kept].to_vec();
            all.push(session(&[], 60, &[table_clock().to_bytes(), cut]));
        }
    }
    all
}

/// Answers, stream and result of other lengths than are asked for.
fn lengths() -> Vec<Session> {
    let whole = of(
        &[2.0],
        &[table_clock(), constant(1, 0.5, 0.0), reschedule(0.0)],
    );
    let mut all = Vec::new();
    let needed = 3 * ANSWER_BYTES;
    let few = [0, ANSWER_BYTES - 1, ANSWER_BYTES].into_iter();
    for answers in few.chain(needed - 1..=needed + 1) {
        all.push(Session {
            answers,
            ..whole.clone()
        });
    }
    for result in [0, 15, 17, 32] {
        all.push(Session {
            result,
            ..whole.clone()
        });
    }
    for cut in [1, 7] {
        let mut other = whole.clone();
        other.stream.resize(8 + cut, 0);
        all.push(other.clone());
        all.push(Session {
            result: 15,
            ..other
        });
    }
    all.push(Session {
        commands: vec![0],
        answers: ANSWER_BYTES - 1,
        ..whole
    });
    all
}

/// Journals that a command just fits or does not; room that is freed serves again.
fn journals() -> Vec<Session> {
    let (new, set, start) = (table_clock(), constant(1, 0.5, 0.0), reschedule(0.0));
    let other = Command::Create(Create {
        clock: 15,
        ..create(0, 2, 0.0)
    });
    let (undo, deliver) = (Command::Undo, Command::Deliver);
    let list = [
        new,
        other,
        undo,
        other,
        set,
        start,
        deliver,
        undo,
        pause(0.0),
        deliver,
    ];
    let lengths = [
        0, 1, 32, 33, 34, 65, 66, 188, 189, 211, 212, 213, 222, 223, 224,
    ];
    let with = |journal| Session {
        journal,
        ..of(&[], &list)
    };
    let drawn = |journal| Session {
        journal,
        ..of(&[2.0], &list)
    };
    lengths
        .map(with)
        .into_iter()
        .chain(lengths.map(drawn))
        .collect()
}
