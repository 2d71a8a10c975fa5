//! Sessions in which all sixteen clocks have eight causes and a queued request. They are longer than the sessions of the fixed list.

use crate::commands;
use crate::floats::{Style, threshold};
use crate::random::Random;
use crate::random_sessions::{Builder, Plan, give_all_clocks, next, plan};
use crate::sessions::{Session, command_count};
use reference::answer::ANSWER_BYTES;
use reference::batch::RESULT_BYTES;
use reference::clock::CHANNELS;
use reference::command::Command;
use reference::command_fields::CLOCKS;

/// Bytes of the commands, and of a journal that holds them all.
pub const LONG_LIMIT: usize = 40_000;
/// Commands after the clocks are full.
const MORE_COMMANDS: u64 = 40;
/// Thresholds: one for each channel and some more.
const THRESHOLDS: usize = CLOCKS * CHANNELS + 20;

pub fn session(random: &mut Random) -> Session {
    let mut plan = plan(random);
    (plan.style, plan.clocks) = (Style::Simple, CLOCKS as u64);
    let stream = (0..THRESHOLDS).flat_map(|_| threshold(random, plan.style).to_le_bytes());
    let mut builder = Builder::new(LONG_LIMIT, stream.collect(), LONG_LIMIT);
    give_all_clocks(random, &plan, &mut builder);
    for clock in 0..CLOCKS as u8 {
        fill(random, &plan, &mut builder, clock);
    }
    for _ in 0..random.below(MORE_COMMANDS) {
        let command = next(random, &plan, &builder);
        builder.give(&command);
    }
    Session {
        answers: command_count(&builder.commands) * ANSWER_BYTES,
        commands: builder.commands,
        stream: builder.stream,
        journal: LONG_LIMIT,
        result: RESULT_BYTES,
    }
}

/// Eight causes and a request.
fn fill(random: &mut Random, plan: &Plan, builder: &mut Builder, clock: u8) {
    for _ in 0..CHANNELS {
        let view = builder
            .view(clock, plan.style)
            .expect("a clock that is present");
        let set = Command::Set(commands::set_new(random, &view));
        builder.give(&set);
    }
    let view = builder
        .view(clock, plan.style)
        .expect("a clock that is present");
    let reschedule = Command::Reschedule(commands::reschedule(random, &view));
    builder.give(&reschedule);
}
