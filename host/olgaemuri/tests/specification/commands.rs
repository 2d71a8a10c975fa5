//! Codes, offsets and widths of the commands.

use crate::changes::{changed, floats, range};
use crate::document::{codes, constants, table, widths};
use olgaemuri::{Command, Entity, Hazard, Pair, Policy, Tie, width};
use std::ops::Range;

/// A command of the document with its operands and their bytes.
struct Layout {
    name: &'static str,
    code: u8,
    width: usize,
    fields: Vec<(&'static str, Range<usize>)>,
}

fn layouts() -> Vec<Layout> {
    let mut layouts: Vec<Layout> = Vec::new();
    for row in table("| code | field | at | bytes | holds |") {
        let (field, bytes) = (row[1], range(row[2], row[3]));
        if row[0].is_empty() {
            layouts
                .last_mut()
                .expect("a command above")
                .fields
                .push((field, bytes));
            continue;
        }
        let code = u8::from_str_radix(row[0], 16).expect("a code");
        assert_eq!(bytes.start, 0, "{field}");
        layouts.push(Layout {
            name: field,
            code,
            width: bytes.end,
            fields: Vec::new(),
        });
    }
    layouts
}

#[test]
fn codes_and_widths_are_the_engine_s_and_the_crate_s() {
    let layouts = layouts();
    let document: Vec<_> = layouts
        .iter()
        .map(|l| (l.name.to_string(), usize::from(l.code)))
        .collect();
    assert_eq!(document, codes());
    let document: Vec<_> = layouts
        .iter()
        .map(|l| (l.name.to_string(), l.width))
        .collect();
    assert_eq!(document, widths());
    for layout in &layouts {
        assert_eq!(width(layout.code), Some(layout.width), "{}", layout.name);
    }
    let known = (0..=255).filter(|code| width(*code).is_some()).count();
    assert_eq!(known, layouts.len());
}

#[test]
fn the_fields_fill_each_command() {
    for layout in layouts() {
        let end = layout.fields.iter().fold(1, |end, (field, bytes)| {
            assert_eq!(bytes.start, end, "{} {field}", layout.name);
            bytes.end
        });
        assert_eq!(end, layout.width, "{}", layout.name);
    }
}

/// The engine's name for the place of each field.
const PLACES: [(&str, &str, &str); 25] = [
    ("CREATE", "clock", "CLOCK_FIELD"),
    ("CREATE", "process", "PROCESS_FIELD"),
    ("CREATE", "policy", "POLICY_FIELD"),
    ("CREATE", "tie", "TIE_FIELD"),
    ("CREATE", "scale", "SCALE_FIELD"),
    ("CREATE", "has-entity", "HAS_ENTITY_FIELD"),
    ("CREATE", "entity index", "ENTITY_INDEX_FIELD"),
    ("CREATE", "generation", "GENERATION_FIELD"),
    ("SET", "clock", "CLOCK_FIELD"),
    ("SET", "cause", "CAUSE_FIELD"),
    ("SET", "priority", "SET_PRIORITY_FIELD"),
    ("SET", "kind", "KIND_FIELD"),
    ("SET", "first", "FIRST_FIELD"),
    ("SET", "now", "SET_NOW_FIELD"),
    ("SET", "count", "COUNT_FIELD"),
    ("SET", "pairs", "PAIRS_FIELD"),
    ("REMOVE", "clock", "CLOCK_FIELD"),
    ("REMOVE", "cause", "CAUSE_FIELD"),
    ("RESCHEDULE", "clock", "CLOCK_FIELD"),
    ("RESCHEDULE", "now", "NOW_FIELD"),
    ("RESCHEDULE", "has-censor", "HAS_CENSOR_FIELD"),
    ("RESCHEDULE", "censor", "CENSOR_FIELD"),
    ("RESCHEDULE", "priority", "PRIORITY_FIELD"),
    ("PAUSE", "clock", "CLOCK_FIELD"),
    ("PAUSE", "now", "NOW_FIELD"),
];

#[test]
fn places_are_the_engine_s() {
    let constants = constants("usize");
    let layouts = layouts();
    let of = |name| {
        layouts
            .iter()
            .find(|layout| layout.name == name)
            .expect("a command")
    };
    for (command, field, constant) in PLACES {
        let place = of(command).fields.iter().find(|(name, _)| *name == field);
        let named = constants.iter().find(|(name, _)| *name == constant);
        assert_eq!(
            place.map(|(_, bytes)| bytes.start),
            named.map(|(_, value)| *value),
            "{command} {field}"
        );
    }
    for (constant, _) in constants {
        assert!(
            PLACES.iter().any(|place| place.2 == constant),
            "{constant} is not compared"
        );
    }
    assert_eq!(of("RESUME").fields, of("RESCHEDULE").fields);
}

fn creates() -> Vec<(&'static str, [Command; 2])> {
    let [first, second] = floats();
    let none = Entity {
        index: 0,
        generation: 0,
    };
    let entity = |index, generation| Some(Entity { index, generation });
    let create = |clock, process, policy, tie, scale, entity| Command::Create {
        clock,
        process,
        policy,
        tie,
        scale,
        entity,
    };
    let (restart, retain) = (Policy::Restart, Policy::RetainResidual);
    let (lowest, highest) = (Tie::LowestCause, Tie::HighestCause);
    let base = |entity| create(0, 0, restart, lowest, first, entity);
    vec![
        (
            "clock",
            [base(None), create(1, 0, restart, lowest, first, None)],
        ),
        (
            "process",
            [
                base(None),
                create(0, u64::MAX, restart, lowest, first, None),
            ],
        ),
        (
            "policy",
            [base(None), create(0, 0, retain, lowest, first, None)],
        ),
        (
            "tie",
            [base(None), create(0, 0, restart, highest, first, None)],
        ),
        (
            "scale",
            [base(None), create(0, 0, restart, lowest, second, None)],
        ),
        ("has-entity", [base(None), base(Some(none))]),
        (
            "entity index",
            [base(Some(none)), base(entity(u64::MAX, 0))],
        ),
        ("generation", [base(Some(none)), base(entity(0, u32::MAX))]),
    ]
}

fn sets() -> Vec<(&'static str, [Command; 2])> {
    let [first, second] = floats();
    let set = |clock, cause, priority, hazard, now| Command::Set {
        clock,
        cause,
        priority,
        hazard,
        now,
    };
    let pieces = |count: usize, value| Hazard::PiecewiseConstant {
        pairs: vec![
            Pair {
                end: value,
                rate: value
            };
            count
        ],
        trailing: 0.0,
    };
    let rate = || Hazard::Constant(first);
    let base = || set(0, 0, 0, rate(), first);
    let with = |hazard| set(0, 0, 0, hazard, first);
    vec![
        ("clock", [base(), set(1, 0, 0, rate(), first)]),
        ("cause", [base(), set(0, u32::MAX, 0, rate(), first)]),
        ("priority", [base(), set(0, 0, u32::MAX, rate(), first)]),
        ("kind", [base(), with(Hazard::Gompertz(first))]),
        ("first", [base(), with(Hazard::Constant(second))]),
        ("now", [base(), set(0, 0, 0, rate(), second)]),
        ("count", [with(pieces(0, 0.0)), with(pieces(8, 0.0))]),
        ("pairs", [with(pieces(8, first)), with(pieces(8, second))]),
    ]
}

fn removes() -> Vec<(&'static str, [Command; 2])> {
    let remove = |clock, cause| Command::Remove { clock, cause };
    vec![
        ("clock", [remove(0, 0), remove(1, 0)]),
        ("cause", [remove(0, 0), remove(0, u32::MAX)]),
    ]
}

fn pauses() -> Vec<(&'static str, [Command; 2])> {
    let [first, second] = floats();
    let pause = |clock, now| Command::Pause { clock, now };
    vec![
        ("clock", [pause(0, first), pause(1, first)]),
        ("now", [pause(0, first), pause(0, second)]),
    ]
}

/// RESCHEDULE or RESUME.
fn reschedules(
    command: fn(u8, f64, Option<f64>, i32) -> Command,
) -> Vec<(&'static str, [Command; 2])> {
    let [first, second] = floats();
    vec![
        (
            "clock",
            [command(0, first, None, 0), command(1, first, None, 0)],
        ),
        (
            "now",
            [command(0, first, None, 0), command(0, second, None, 0)],
        ),
        (
            "has-censor",
            [command(0, first, None, 0), command(0, first, Some(0.0), 0)],
        ),
        (
            "censor",
            [
                command(0, first, Some(first), 0),
                command(0, first, Some(second), 0),
            ],
        ),
        (
            "priority",
            [command(0, first, None, 0), command(0, first, None, -1)],
        ),
    ]
}

#[test]
fn the_crate_writes_each_field_there() {
    let reschedule = |clock, now, censor, priority| Command::Reschedule {
        clock,
        now,
        censor,
        priority,
    };
    let resume = |clock, now, censor, priority| Command::Resume {
        clock,
        now,
        censor,
        priority,
    };
    let written = [
        ("CREATE", creates()),
        ("SET", sets()),
        ("REMOVE", removes()),
        ("RESCHEDULE", reschedules(reschedule)),
        ("PAUSE", pauses()),
        ("RESUME", reschedules(resume)),
        ("DELIVER", vec![]),
        ("UNDO", vec![]),
    ];
    for (layout, (name, changes)) in layouts().iter().zip(written) {
        let places = changes.iter().map(|(field, [before, after])| {
            assert_eq!((before.name(), before.width()), (name, layout.width));
            (*field, changed(&before.to_bytes(), &after.to_bytes()))
        });
        assert_eq!(layout.name, name);
        assert_eq!(layout.fields, places.collect::<Vec<_>>(), "{name}");
    }
}

#[test]
fn a_pair_is_its_end_and_then_its_rate() {
    let [end, rate] = floats();
    let pairs = vec![Pair { end, rate }];
    let hazard = Hazard::PiecewiseConstant {
        pairs,
        trailing: 0.0,
    };
    let set = Command::Set {
        clock: 0,
        cause: 0,
        priority: 0,
        hazard,
        now: 0.0,
    };
    assert_eq!(
        set.to_bytes()[28..44],
        [end.to_le_bytes(), rate.to_le_bytes()].concat()
    );
}
