//! Changes that make an accepted sample a refused one, one function for each condition.

use crate::floats::{not_a_threshold, not_a_time, not_zero_bits};
use crate::hazard_damage;
use crate::random::Random;
use crate::samples::{SampleCase, THRESHOLDS};
use reference::request::{CENSORED_CAUSE, RECORDS};

type Damage = fn(&mut Random, &mut SampleCase);

const DAMAGES: [Damage; 21] = [
    tie_off_its_list,
    has_censor_off_its_list,
    censor_where_unused,
    age_out_of_range,
    censor_out_of_range,
    hazard,
    hazard,
    hazard,
    hazard,
    hazard,
    censored_cause,
    censored_cause,
    too_many_records,
    too_many_records,
    position_past_the_thresholds,
    position_past_the_thresholds,
    too_few_thresholds,
    too_few_thresholds,
    threshold_out_of_range,
    threshold_out_of_range,
    threshold_out_of_range,
];

pub fn damage(random: &mut Random, case: &mut SampleCase) {
    let change = random.pick(&DAMAGES);
    change(random, case);
}

/// 4.
fn tie_off_its_list(random: &mut Random, case: &mut SampleCase) {
    case.request.tie = random.byte_from(3);
}

/// 4.
fn has_censor_off_its_list(random: &mut Random, case: &mut SampleCase) {
    case.request.has_censor = random.byte_from(2);
}

/// 4.
fn censor_where_unused(random: &mut Random, case: &mut SampleCase) {
    case.request.has_censor = 0;
    case.request.censor = not_zero_bits(random);
}

/// 5.
fn age_out_of_range(random: &mut Random, case: &mut SampleCase) {
    case.request.age = not_a_time(random);
}

/// 5.
fn censor_out_of_range(random: &mut Random, case: &mut SampleCase) {
    case.request.has_censor = 1;
    case.request.censor = not_a_time(random);
}

/// 4, 5 or 6 in a used record, if there is one.
fn hazard(random: &mut Random, case: &mut SampleCase) {
    let at = used_index(random, case);
    hazard_damage::damage(random, &mut case.request.records[at].hazard);
}

/// 7 in a used record, if there is one.
fn censored_cause(random: &mut Random, case: &mut SampleCase) {
    let at = used_index(random, case);
    case.request.records[at].cause = CENSORED_CAUSE;
}

/// 10, or what the records that were unused till now are refused by.
fn too_many_records(random: &mut Random, case: &mut SampleCase) {
    let used = case.request.used_count();
    if used > 0 && random.chance(80) {
        let records = &mut case.request.records;
        let (given, rest) = records.split_at_mut(used);
        rest.fill(given[0]);
    }
    case.request.n = random.pick(&[9, 9, 16, 128, 255]);
}

/// 1.
fn position_past_the_thresholds(random: &mut Random, case: &mut SampleCase) {
    let length = case.thresholds.len() as u64;
    case.position = random.pick(&[length + 1, length + 1, length + 2, 1 << 61, u64::MAX]);
}

/// 15, or 16 where a draw before it fails.
fn too_few_thresholds(random: &mut Random, case: &mut SampleCase) {
    let kept = next_draw(case) + used_index(random, case);
    case.thresholds.truncate(kept);
}

/// 16 at one of the draws, if there is one.
fn threshold_out_of_range(random: &mut Random, case: &mut SampleCase) {
    let at = next_draw(case) + used_index(random, case);
    if let Some(w) = case.thresholds.get_mut(at) {
        *w = not_a_threshold(random);
    }
}

/// Where the first draw stands, or past all thresholds.
fn next_draw(case: &SampleCase) -> usize {
    case.position.min(THRESHOLDS as u64) as usize
}

fn used_index(random: &mut Random, case: &SampleCase) -> usize {
    random.index(case.request.used_count().clamp(1, RECORDS))
}
