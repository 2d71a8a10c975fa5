//! Changes that make an accepted command one that 4 to 7 refuse.

use crate::floats::{not_a_time, not_zero_bits, out_of_size};
use crate::hazard_damage;
use crate::random::Random;
use reference::command::{Command, Create, Reschedule, Set};
use reference::request::CENSORED_CAUSE;

/// One change, or two: the number that comes first in the table is then the answer.
pub fn damage(random: &mut Random, command: &mut Command) {
    damage_once(random, command);
    if random.chance(30) {
        damage_once(random, command);
    }
}

fn damage_once(random: &mut Random, command: &mut Command) {
    match command {
        Command::Create(create) => damage_create(random, create),
        Command::Set(set) => damage_set(random, set),
        Command::Remove { clock, cause } => {
            if random.chance(50) {
                *clock = no_clock(random);
            } else {
                *cause = CENSORED_CAUSE;
            }
        }
        Command::Reschedule(operands) | Command::Resume(operands) => {
            damage_reschedule(random, operands);
        }
        Command::Pause { clock, now } => {
            if random.chance(50) {
                *clock = no_clock(random);
            } else {
                *now = not_a_time(random);
            }
        }
        Command::Deliver | Command::Undo => {}
    }
}

/// 7.
fn no_clock(random: &mut Random) -> u8 {
    if random.chance(50) {
        16
    } else {
        random.byte_from(16)
    }
}

/// 4, 5 or 7.
fn damage_create(random: &mut Random, create: &mut Create) {
    match random.below(7) {
        0 => create.policy = random.byte_from(2),
        1 => create.tie = random.byte_from(3),
        2 => create.has_entity = random.byte_from(2),
        3 => (create.has_entity, create.entity_index) = (0, 1 + random.below(9)),
        4 => (create.has_entity, create.generation) = (0, 1 << random.below(32)),
        5 => create.scale = out_of_size(random),
        _ => create.clock = no_clock(random),
    }
}

/// 4 to 7.
fn damage_set(random: &mut Random, set: &mut Set) {
    match random.below(7) {
        0 => set.now = not_a_time(random),
        1 => set.cause = CENSORED_CAUSE,
        2 => set.clock = no_clock(random),
        _ => hazard_damage::damage(random, &mut set.hazard),
    }
}

/// 4, 5 or 7.
fn damage_reschedule(random: &mut Random, operands: &mut Reschedule) {
    match random.below(5) {
        0 => operands.has_censor = random.byte_from(2),
        1 => (operands.has_censor, operands.censor) = (0, not_zero_bits(random)),
        2 => operands.now = not_a_time(random),
        3 => (operands.has_censor, operands.censor) = (1, not_a_time(random)),
        _ => operands.clock = no_clock(random),
    }
}
