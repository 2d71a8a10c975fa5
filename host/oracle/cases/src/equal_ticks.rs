//! Sessions in which several clocks have events at the same tick, with priorities at the ends of i32 and around 0. The cause names the
//! clock, so that a delivery's answer says whose event it is.

use crate::commands;
use crate::floats::Style;
use crate::random::Random;
use crate::random_sessions::Builder;
use crate::sessions::{Session, command_count};
use reference::answer::ANSWER_BYTES;
use reference::batch::RESULT_BYTES;
use reference::command::{Command, Create, Reschedule, Set};
use reference::hazard::{CONSTANT, Hazard};

/// Bytes of the commands, and of a journal that holds them all.
const LIMIT: usize = 8_000;
/// Commands after every clock has its cause.
const MORE_COMMANDS: u64 = 70;
const THRESHOLD: f64 = 2.0;

/// Both ends, what stands beside them, and both signs.
const PRIORITIES: [i32; 8] = [i32::MIN, i32::MIN + 1, -2, -1, 0, 1, i32::MAX - 1, i32::MAX];

pub fn session(random: &mut Random) -> Session {
    let clocks = random.pick(&[2, 2, 3, 5, 16]);
    let stream = THRESHOLD.to_le_bytes().repeat(clocks);
    let mut builder = Builder::new(LIMIT, stream, LIMIT);
    let scale = random.pick(&[1.0, 0.125]);
    for clock in 0..clocks as u8 {
        builder.give(&Command::Create(Create {
            scale,
            ..commands::create(random, Style::Simple, clock)
        }));
        builder.give(&with_cause(random, clock));
    }
    let priorities: Vec<i32> = (0..random.pick(&[2, 3, 8]))
        .map(|_| random.pick(&PRIORITIES))
        .collect();
    for _ in 0..random.below(MORE_COMMANDS) {
        builder.give(&next(random, clocks as u64, &priorities));
    }
    Session {
        answers: command_count(&builder.commands) * ANSWER_BYTES,
        commands: builder.commands,
        stream: builder.stream,
        journal: LIMIT,
        result: RESULT_BYTES,
    }
}

/// A cause that waits 4, or now and then 8.
fn with_cause(random: &mut Random, clock: u8) -> Command {
    let wait = random.pick(&[4.0, 4.0, 4.0, 8.0]);
    Command::Set(Set {
        clock,
        cause: 100 + u32::from(clock),
        priority: 0,
        hazard: Hazard::single_rate(CONSTANT, THRESHOLD / wait),
        now: 0.0,
    })
}

/// All at time 0, so that what is scheduled again has the same ticks.
fn next(random: &mut Random, clocks: u64, priorities: &[i32]) -> Command {
    let clock = random.below(clocks) as u8;
    let operands = Reschedule {
        clock,
        priority: random.pick(priorities),
        ..Reschedule::default()
    };
    match random.below(20) {
        0..8 => Command::Reschedule(operands),
        8..10 => Command::Resume(operands),
        10 => Command::Pause { clock, now: 0.0 },
        11..14 => Command::Undo,
        _ => Command::Deliver,
    }
}
