//! The list of clock steps: its layout, that it is the same in every run, and what it covers.

mod common;

use cases::clock_steps::{ClockStep, RECORD_BYTES};
use cases::{command_tally, lists};
use common::{checksum, numbers};
use kairo_ecs_rng::CauseId;
use reference::choices::{POLICIES, TIES, number_of};
use reference::clock::Clock;
use reference::command::{Command, Create};
use std::collections::BTreeSet;

#[test]
fn clock_steps_are_the_same_each_time() {
    let stream = lists::clock_stream();
    assert_eq!(stream, lists::clock_stream());
    assert_eq!(checksum(&stream), 0xDC92_C70B_6950_8A78);
    let steps = lists::clock_steps();
    let bytes = lists::clock_step_bytes(&steps);
    assert_eq!(bytes, lists::clock_step_bytes(&lists::clock_steps()));
    assert_eq!(bytes.len(), steps.len() * RECORD_BYTES);
    assert_eq!(checksum(&bytes), 0xB0D4_C5F0_99E6_1CF5);
}

/// Rows 9 and 10 come first: CREATE, SET, RESCHEDULE, PAUSE, RESUME, DELIVER.
#[test]
fn layout_of_a_step() {
    let bytes = lists::clock_step_bytes(&lists::clock_steps());
    let step = &bytes[2 * RECORD_BYTES..3 * RECORD_BYTES];
    assert_eq!(step[..2], [4, 0]);
    assert_eq!(step[2..164], [0; 162]);
    assert_eq!(step[164..172], 1u64.to_le_bytes());
    assert_eq!(step[172..180], [0, 1, 0, 0, 1, 0, 0, 0]);
    assert_eq!(step[180..188], 4.0f64.to_le_bytes());
    assert_eq!(step[188..196], 40u64.to_le_bytes());
    assert_eq!(step[196..212], [0; 16]);
    assert_eq!(step[212..220], 1u64.to_le_bytes());
    layout_of_a_clock(&step[220..]);
}

fn layout_of_a_clock(clock: &[u8]) {
    assert_eq!(clock[..8], 1u64.to_le_bytes());
    assert_eq!(clock[8..23], [0, 0, 0, 0, 0, 0, 0, 0, 0, 0, 0, 0, 0, 1, 0]);
    assert_eq!(clock[23..31], 10.0f64.to_le_bytes());
    assert_eq!(clock[31..41], [1, 1, 0, 0, 0, 0, 0, 0, 0, 1]);
    assert_eq!(clock[41..49], 0.5f64.to_le_bytes());
    assert_eq!(clock[49..186], [0; 137]);
    assert_eq!(clock[186..194], 2.0f64.to_le_bytes());
    assert_eq!(clock[194..1392], [0; 1198]);
    assert_eq!(clock[1392..1402], [1, 0, 0, 0, 0, 0, 0, 0, 0, 1]);
    assert_eq!(clock[1402..1406], [1, 0, 0, 0]);
    assert_eq!(clock[1406..1414], 4.0f64.to_le_bytes());
    assert_eq!(clock[1414..], [&[1][..], &[0; 37]].concat());
}

#[test]
fn only_three_refusals_are_among_the_steps() {
    assert_eq!(
        numbers(&command_tally::clock_steps(&lists::clock_steps())),
        [10, 15, 16]
    );
}

/// Each step with the clock as it was before.
fn pairs(steps: &[ClockStep]) -> impl Iterator<Item = (&Clock, &ClockStep)> {
    let pairs = steps.windows(2).map(|pair| (&pair[0].after, &pair[1]));
    pairs.filter(|(_, step)| !matches!(step.command, Command::Create(_)))
}

fn accepted(steps: &[ClockStep]) -> impl Iterator<Item = (&Clock, &ClockStep)> {
    pairs(steps).filter(|(_, step)| step.answer.number == 0)
}

#[test]
fn a_history_begins_with_create_and_goes_on_from_step_to_step() {
    let steps = lists::clock_steps();
    assert!(matches!(steps[0].command, Command::Create(_)));
    for pair in steps.windows(2) {
        if !matches!(pair[1].command, Command::Create(_)) {
            let made = matches!(pair[0].command, Command::Reschedule(_) | Command::Resume(_))
                && pair[0].answer.event;
            assert_eq!(
                pair[1].requests_before,
                pair[0].requests_before + u64::from(made)
            );
            assert_eq!(pair[1].position_before, pair[0].position_after);
        }
    }
    for (before, step) in pairs(&steps) {
        let scheduled = before.scheduled_event_id.is_some();
        assert!(step.command != Command::Deliver || scheduled);
    }
}

#[test]
fn every_policy_and_tie_with_every_number_of_channels() {
    let steps = lists::clock_steps();
    let seen: BTreeSet<(u8, usize)> = accepted(&steps)
        .map(|(_, step)| {
            let policy = number_of(&POLICIES, &step.after.policy);
            let tie = number_of(&TIES, &step.after.tie_breaker);
            (policy * 3 + tie, step.after.channels.len())
        })
        .filter(|seen| seen.1 > 0)
        .collect();
    let all = (0..6).flat_map(|choice| (1..=8).map(move |n| (choice, n)));
    assert_eq!(seen, all.collect());
}

#[test]
fn every_kind_and_count_is_set() {
    let steps = lists::clock_steps();
    let seen: BTreeSet<(u8, u8)> = accepted(&steps)
        .filter_map(|(_, step)| match &step.command {
            Command::Set(set) => Some((set.hazard.kind, set.hazard.count)),
            _ => None,
        })
        .collect();
    let all = [(0, 0), (1, 0), (2, 0), (4, 0)].into_iter();
    assert_eq!(seen, all.chain((0..=8).map(|count| (3, count))).collect());
}

#[test]
fn ties_are_decided_by_every_tie_choice() {
    let decided: BTreeSet<u8> = lists::clock_steps()
        .iter()
        .filter(|step| {
            step.answer.delta > 0.0
                && command_tally::decided_by_tie(&step.after, &step.command, &step.answer)
        })
        .map(|step| number_of(&TIES, &step.after.tie_breaker))
        .collect();
    assert_eq!(decided, BTreeSet::from([0, 1, 2]));
}

/// At least ten accepted steps for which the test holds.
fn at_least_ten(name: &str, test: impl Fn(&Clock, &ClockStep) -> bool) {
    let steps = lists::clock_steps();
    let count = accepted(&steps).filter(|(before, step)| test(before, step));
    assert!(count.count() >= 10, "{name}");
}

#[test]
fn thresholds_kept_and_drawn_afresh() {
    let again = |before: &Clock, step: &ClockStep| match &step.command {
        Command::Set(set) => before.channels.contains_key(&CauseId(set.cause)),
        _ => false,
    };
    let drawn = |step: &ClockStep| step.position_after > step.position_before;
    for policy in POLICIES {
        at_least_ten("drawn afresh", |before, step| {
            before.policy == policy && again(before, step) && drawn(step)
        });
    }
    at_least_ten("kept", |before, step| again(before, step) && !drawn(step));
}

#[test]
fn censor_times_around_now_and_the_event() {
    let times = |before: &Clock, step: &ClockStep| match &step.command {
        Command::Reschedule(operands) | Command::Resume(operands) => {
            let event = before.compute_earliest_event(operands.now)?;
            Some((operands.now, operands.censor_time()?, event.1))
        }
        _ => None,
    };
    let holds = |name, test: fn((f64, f64, f64)) -> bool| {
        at_least_ten(name, |before, step| times(before, step).is_some_and(test));
    };
    holds("before now", |(now, censor, _)| censor < now);
    holds("at now", |(now, censor, _)| censor == now);
    holds("before the event", |(now, censor, event)| {
        now < censor && censor < event
    });
    holds("at the event", |(now, censor, event)| {
        now < event && censor == event
    });
    holds("after the event", |(_, censor, event)| censor > event);
}

#[test]
fn steps_out_of_turn() {
    let resumes = |step: &ClockStep| matches!(step.command, Command::Resume(_));
    let pauses = |step: &ClockStep| matches!(step.command, Command::Pause { .. });
    at_least_ten("resumed, not paused", |before, step| {
        resumes(step) && before.is_active
    });
    at_least_ten("paused, not active", |before, step| {
        pauses(step) && !before.is_active
    });
    at_least_ten("withdrawn by a pause", |_, step| {
        pauses(step) && step.answer.withdrawn
    });
    at_least_ten("winner removed", |before, step| {
        let winner = before.current_winner.map(|(cause, _)| cause.0);
        matches!(step.command, Command::Remove { cause, .. } if Some(cause) == winner)
    });
    at_least_ten("absent cause removed", |before, step| match step.command {
        Command::Remove { cause, .. } => !before.channels.contains_key(&CauseId(cause)),
        _ => false,
    });
}

/// Both has-bytes, scales at most 0, priorities at both ends.
#[test]
fn operands_at_their_limits() {
    let steps = lists::clock_steps();
    let creates: Vec<Create> = steps
        .iter()
        .filter_map(|step| match step.command {
            Command::Create(create) => Some(create),
            _ => None,
        })
        .collect();
    for has in [0, 1] {
        assert!(creates.iter().any(|create| create.has_entity == has));
    }
    assert!(
        creates
            .iter()
            .any(|create| create.scale.to_bits() == 1 << 63)
    );
    assert!(creates.iter().any(|create| create.scale < 0.0));
    for limit in [i32::MIN, i32::MAX] {
        at_least_ten("priority", |_, step| match &step.command {
            Command::Reschedule(operands) | Command::Resume(operands) => {
                operands.priority == limit && step.answer.event
            }
            _ => false,
        });
    }
}
