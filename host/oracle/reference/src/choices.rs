//! The numbers of policies and ties (document 01, under the table of commands).

use kairo_ecs_des::HazardInterruptionPolicy;
use kairo_ecs_rng::TieBreaker;

pub const POLICIES: [HazardInterruptionPolicy; 2] = [
    HazardInterruptionPolicy::Restart,
    HazardInterruptionPolicy::RetainResidual,
];

pub const TIES: [TieBreaker; 3] = [
    TieBreaker::LowestCauseId,
    TieBreaker::HighestCauseId,
    TieBreaker::ExplicitPriority,
];

/// The place of a choice in its list.
pub fn number_of<Choice: PartialEq>(choices: &[Choice], choice: &Choice) -> u8 {
    let place = choices.iter().position(|other| other == choice);
    place.expect("a choice of the list") as u8
}

/// A has-byte is 0 or 1, and what stands after a 0 is zero bits.
pub fn has_field_valid(has: u8, rest_is_zero: bool) -> bool {
    match has {
        0 => rest_is_zero,
        1 => true,
        _ => false,
    }
}
