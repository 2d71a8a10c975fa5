//! Makes a session smaller as long as a test still holds of it: fewer commands, shorter buffers, zero operands.

use cases::inputs::split;
use cases::sessions::{Session, command_count};
use kairo_ecs_rng::THRESHOLD_BYTES;
use reference::answer::ANSWER_BYTES;
use reference::batch::RESULT_BYTES;

type Test<'a> = &'a dyn Fn(&Session) -> bool;

/// A session from which no part can be taken any more without losing what the test sees.
pub fn shrink(session: &Session, holds: Test) -> Session {
    let mut smallest = session.clone();
    loop {
        let before = size(&smallest);
        for step in [
            drop_commands,
            drop_thresholds,
            drop_draws,
            shorten_buffers,
            clear_operands,
        ] {
            step(&mut smallest, holds);
        }
        if size(&smallest) == before {
            return smallest;
        }
    }
}

/// Bytes in all, and bytes of the commands that are not zero.
fn size(session: &Session) -> (usize, usize) {
    let lengths = [
        session.commands.len(),
        session.stream.len(),
        session.journal,
    ];
    let bytes = lengths.iter().sum::<usize>() + session.answers + session.result;
    (
        bytes,
        session.commands.iter().filter(|byte| **byte != 0).count(),
    )
}

/// Puts the changed session in place of the session if the test holds of it.
fn keep(session: &mut Session, changed: Session, holds: Test) {
    if holds(&changed) {
        *session = changed;
    }
}

/// The answers keep the bytes that they had beyond what the commands need.
fn with_commands(session: &Session, commands: Vec<u8>) -> Session {
    let needed = |commands: &[u8]| command_count(commands) * ANSWER_BYTES;
    let fewer = needed(&session.commands) - needed(&commands);
    Session {
        answers: session.answers.saturating_sub(fewer),
        commands,
        ..session.clone()
    }
}

fn with_stream(session: &Session, stream: Vec<u8>) -> Session {
    Session {
        stream,
        ..session.clone()
    }
}

fn command_parts(session: &Session) -> Vec<Vec<u8>> {
    let commands = split(&session.commands).into_iter();
    commands.map(<[u8]>::to_vec).collect()
}

fn threshold_parts(session: &Session) -> Vec<Vec<u8>> {
    let thresholds = session.stream.chunks(THRESHOLD_BYTES);
    thresholds.map(<[u8]>::to_vec).collect()
}

fn drop_commands(session: &mut Session, holds: Test) {
    drop_parts(session, holds, command_parts, with_commands);
}

fn drop_thresholds(session: &mut Session, holds: Test) {
    drop_parts(session, holds, threshold_parts, with_stream);
}

type Parts = fn(&Session) -> Vec<Vec<u8>>;
type With = fn(&Session, Vec<u8>) -> Session;

/// First half of the parts at once, then ever fewer.
fn drop_parts(session: &mut Session, holds: Test, parts: Parts, with: With) {
    let mut run = parts(session).len().div_ceil(2);
    while run > 0 {
        drop_runs(session, holds, run, parts, with);
        run /= 2;
    }
}

/// Takes out so many parts at a time, from the last to the first.
fn drop_runs(session: &mut Session, holds: Test, run: usize, parts: Parts, with: With) {
    let mut end = parts(session).len();
    while end > 0 {
        let mut rest = parts(session);
        let start = end.saturating_sub(run);
        rest.drain(start..end);
        keep(session, with(session, rest.concat()), holds);
        end = start;
    }
}

/// Each command with a threshold, so that the draws after it stay the same.
fn drop_draws(session: &mut Session, holds: Test) {
    for command in (0..command_parts(session).len()).rev() {
        drop_draw(session, holds, command);
    }
}

/// The command with the first threshold that can go with it.
fn drop_draw(session: &mut Session, holds: Test, command: usize) {
    let mut commands = command_parts(session);
    commands.remove(command);
    let fewer = with_commands(session, commands.concat());
    let without = |threshold| {
        let mut thresholds = threshold_parts(&fewer);
        thresholds.remove(threshold);
        with_stream(&fewer, thresholds.concat())
    };
    let mut tries = (0..threshold_parts(session).len()).map(without);
    if let Some(changed) = tries.find(holds) {
        *session = changed;
    }
}

/// Each length alone; the result is made 16 bytes if it can be.
fn shorten_buffers(session: &mut Session, holds: Test) {
    shorten(session, holds, |session| &mut session.journal);
    shorten(session, holds, |session| &mut session.answers);
    let result = Session {
        result: RESULT_BYTES,
        ..session.clone()
    };
    keep(session, result, holds);
}

/// As much as can be taken off at once, then ever less.
fn shorten(session: &mut Session, holds: Test, length: fn(&mut Session) -> &mut usize) {
    let mut off = *length(session);
    while off > 0 {
        let mut shorter = session.clone();
        let left = length(&mut shorter);
        if *left >= off {
            *left -= off;
            keep(session, shorter, holds);
        }
        off /= 2;
    }
}

/// Bytes of operands that can be zero are.
fn clear_operands(session: &mut Session, holds: Test) {
    for at in operand_places(session) {
        let mut cleared = session.clone();
        cleared.commands[at] = 0;
        keep(session, cleared, holds);
    }
}

/// Every byte that is not zero but for the commands' codes.
fn operand_places(session: &Session) -> Vec<usize> {
    let parts = split(&session.commands);
    let is_operand = parts
        .iter()
        .flat_map(|part| (0..part.len()).map(|at| at > 0));
    let bytes = session.commands.iter().zip(is_operand).enumerate();
    let places = bytes.filter(|(_, (byte, is_operand))| **byte != 0 && *is_operand);
    places.map(|(at, _)| at).collect()
}

#[cfg(test)]
mod tests {
    use super::*;
    use cases::random::Random;
    use cases::random_sessions;
    use reference::command::{Command, DELIVER, UNDO};

    /// Some session with an UNDO after a DELIVER, a journal over 100 bytes and a threshold.
    fn made_up(session: &Session) -> bool {
        let commands = split(&session.commands);
        let codes: Vec<u8> = commands.iter().map(|command| command[0]).collect();
        let deliver = codes.iter().position(|code| *code == DELIVER);
        deliver.is_some_and(|at| codes[at..].contains(&UNDO))
            && session.journal > 100
            && !session.stream.is_empty()
    }

    #[test]
    fn what_the_test_does_not_need_is_taken_away() {
        let mut random = Random::new(1);
        let long = std::iter::repeat_with(|| random_sessions::session(&mut random))
            .find(|session| made_up(session) && command_count(&session.commands) > 30);
        let small = shrink(&long.expect("one of many"), &made_up);
        assert_eq!(small.commands, [DELIVER, UNDO]);
        assert_eq!(small.journal, 101);
        assert_eq!(small.stream.len(), THRESHOLD_BYTES);
        assert_eq!((small.answers, small.result), (0, RESULT_BYTES));
    }

    /// The last of two draws is the one that counts.
    #[test]
    fn a_command_goes_with_its_threshold() {
        let thresholds = [1.0f64, 2.0, 3.0].map(f64::to_le_bytes);
        let session = Session {
            commands: vec![DELIVER; 3],
            stream: thresholds.concat(),
            journal: 0,
            answers: 0,
            result: RESULT_BYTES,
        };
        let last_drawn = |s: &Session| {
            s.commands.len() * THRESHOLD_BYTES == s.stream.len()
                && s.stream.ends_with(&thresholds[2])
        };
        let small = shrink(&session, &last_drawn);
        assert_eq!(small.commands, [DELIVER]);
        assert_eq!(small.stream, thresholds[2]);
    }

    #[test]
    fn operands_that_do_not_matter_are_zero() {
        let pause = |clock| Command::Pause { clock, now: 3.5 }.to_bytes();
        let session = Session {
            commands: [pause(3), pause(4)].concat(),
            stream: vec![],
            journal: 0,
            answers: 2 * ANSWER_BYTES,
            result: 15,
        };
        let small = shrink(&session, &|s| {
            s.commands.len() >= 10 && s.commands[1] == 4 && s.answers > 7
        });
        let expected = Command::Pause { clock: 4, now: 0.0 }.to_bytes();
        assert_eq!(small.commands[1..], expected[1..]);
        assert_eq!((small.answers, small.result), (8, 16));
    }
}
