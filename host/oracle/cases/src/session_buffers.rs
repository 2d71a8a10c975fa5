//! The buffers of a random session: thresholds, the journal's length, a spoilt end of the commands,
//! room for answers and result.

use crate::floats::{Style, not_a_threshold, threshold};
use crate::random::Random;
use crate::sessions::{BUFFER_LIMIT, Session, command_count};
use kairo_ecs_rng::THRESHOLD_BYTES;
use reference::answer::ANSWER_BYTES;
use reference::batch::RESULT_BYTES;
use reference::command::{UNDO, width};

/// Thresholds of the style, few or many, some of them bad.
pub fn stream(random: &mut Random, style: Style) -> Vec<u8> {
    let length = random.pick(&[0, 1, 2, 5, 16, 40, 40, 64, 64, 64]);
    let bad = random.pick(&[0, 0, 0, 2, 10]);
    let mut one = |_| {
        if random.chance(bad) {
            not_a_threshold(random)
        } else {
            threshold(random, style)
        }
    };
    (0..length).flat_map(|n| one(n).to_le_bytes()).collect()
}

pub fn journal_length(random: &mut Random) -> usize {
    match random.below(12) {
        0 => random.index(40),
        1 => random.index(400),
        2 => random.index(1500),
        _ => 1500 + random.index(BUFFER_LIMIT - 1499),
    }
}

/// A code off the list or a cut command, at the end or before it.
pub fn spoil(random: &mut Random, commands: &mut Vec<u8>) {
    match random.below(4) {
        0 => commands.push(0),
        1 => commands.push(random.byte_from(UNDO + 1)),
        2 => {
            let kept = random.index(commands.len() + 1);
            commands.truncate(kept);
        }
        _ => {
            let code = 1 + random.below(6) as u8;
            let cut = random.index(width(code).expect("a code of the table"));
            commands.push(code);
            commands.extend((1..cut).map(|_| random.word() as u8));
        }
    }
    commands.truncate(BUFFER_LIMIT);
}

/// Mostly room for every answer; some streams and results that 18 refuses.
pub fn buffers(
    random: &mut Random,
    commands: Vec<u8>,
    mut stream: Vec<u8>,
    journal: usize,
) -> Session {
    let needed = command_count(&commands) * ANSWER_BYTES;
    let answers = match random.below(10) {
        0 => random.index(needed + 1),
        1 => needed.saturating_sub(1),
        2..6 => needed,
        _ => needed + random.index(100),
    };
    if random.chance(3) {
        let cut = 1 + random.index(THRESHOLD_BYTES - 1);
        stream.resize(stream.len() + cut, 0);
    }
    let result = if random.chance(3) {
        random.pick(&[0, 1, 8, 15, 17, 24, 32])
    } else {
        RESULT_BYTES
    };
    Session {
        commands,
        stream,
        journal,
        answers: answers.min(BUFFER_LIMIT),
        result,
    }
}
