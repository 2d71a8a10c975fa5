//! Refusals 4 to 7 of a command's fields, each number over all fields before the next.

use crate::choices::{POLICIES, TIES, has_field_valid};
use crate::command::{Command, Create, Reschedule};
use crate::fields::{is_zero_bits, size_in_range, time_in_range};
use crate::refusal::{Refusal, first_failure};
use crate::request::CENSORED_CAUSE;

/// Clocks are named 0 to 15.
pub const CLOCKS: usize = 16;

/// Which of the four conditions hold.
struct Fields {
    choices: bool,
    ranges: bool,
    pairs: bool,
    cause: bool,
}

const ALL_VALID: Fields = Fields {
    choices: true,
    ranges: true,
    pairs: true,
    cause: true,
};

pub fn field_refusal(command: &Command) -> Option<Refusal> {
    let valid = fields(command);
    let clock_valid = command
        .clock()
        .is_none_or(|clock| usize::from(clock) < CLOCKS);
    first_failure(&[
        (valid.choices, Refusal::InvalidChoice),
        (valid.ranges, Refusal::OutOfRange),
        (valid.pairs, Refusal::InvalidPairs),
        (valid.cause && clock_valid, Refusal::InvalidName),
    ])
}

fn fields(command: &Command) -> Fields {
    match command {
        Command::Create(create) => Fields {
            choices: create_choices_valid(create),
            ranges: size_in_range(create.scale),
            ..ALL_VALID
        },
        Command::Set(set) => Fields {
            choices: set.hazard.choice_valid(),
            ranges: set.hazard.rates_in_range() && time_in_range(set.now),
            pairs: set.hazard.pairs_valid(),
            cause: set.cause != CENSORED_CAUSE,
        },
        Command::Remove { cause, .. } => Fields {
            cause: *cause != CENSORED_CAUSE,
            ..ALL_VALID
        },
        Command::Reschedule(operands) | Command::Resume(operands) => Fields {
            choices: has_field_valid(operands.has_censor, is_zero_bits(operands.censor)),
            ranges: times_in_range(operands),
            ..ALL_VALID
        },
        Command::Pause { now, .. } => Fields {
            ranges: time_in_range(*now),
            ..ALL_VALID
        },
        Command::Deliver | Command::Undo => ALL_VALID,
    }
}

fn create_choices_valid(create: &Create) -> bool {
    let entity_is_zero = create.entity_index == 0 && create.generation == 0;
    usize::from(create.policy) < POLICIES.len()
        && usize::from(create.tie) < TIES.len()
        && has_field_valid(create.has_entity, entity_is_zero)
}

/// An unused censor is zero by then, and zero is in range.
fn times_in_range(operands: &Reschedule) -> bool {
    time_in_range(operands.now) && time_in_range(operands.censor)
}
