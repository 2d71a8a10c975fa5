//! Commands to bytes and back.

mod common;

use common::{Random, any_command};
use olgaemuri::{Command, Entity, Hazard, Input, Pair, Policy, Refusal, Tie, width};

#[test]
fn every_command_comes_back_from_its_bytes() {
    let mut random = Random(20261115);
    let mut seen = [0; 9];
    for _ in 0..40_000 {
        let command = any_command(&mut random);
        let mut bytes = command.to_bytes();
        assert_eq!(bytes.len(), command.width());
        assert_eq!(width(bytes[0]), Some(command.width()));
        let back = Command::from_bytes(&bytes).expect("a command's own bytes");
        assert_eq!(back.to_bytes(), bytes);
        // as words, since NaN is not equal to itself
        assert_eq!(format!("{back:?}"), format!("{command:?}"));
        bytes.push(random.byte());
        let back = Command::from_bytes(&bytes).expect("bytes past the width are ignored");
        assert_eq!(back.to_bytes(), bytes[..command.width()]);
        seen[usize::from(command.code())] += 1;
    }
    assert!(seen[1..].iter().all(|times| *times > 1000), "{seen:?}");
}

/// The f64 2.0 in bytes.
const TWO: [u8; 8] = [0, 0, 0, 0, 0, 0, 0, 0x40];

#[test]
fn layout_of_create() {
    let create = Command::Create {
        clock: 3,
        process: 0x0807_0605_0403_0201,
        policy: Policy::RetainResidual,
        tie: Tie::ExplicitPriority,
        scale: 2.0,
        entity: Some(Entity {
            index: 9,
            generation: 4,
        }),
    };
    let front = [1, 3, 1, 2, 3, 4, 5, 6, 7, 8, 1, 2];
    let entity = [1, 9, 0, 0, 0, 0, 0, 0, 0, 4, 0, 0, 0];
    assert_eq!(create.to_bytes(), [&front[..], &TWO, &entity].concat());
}

#[test]
fn layout_of_set() {
    let pairs = vec![Pair {
        end: 2.0,
        rate: 0.0,
    }];
    let hazard = Hazard::PiecewiseConstant {
        pairs,
        trailing: 2.0,
    };
    let set = Command::Set {
        clock: 1,
        cause: 258,
        priority: 5,
        hazard,
        now: 0.0,
    };
    let front = [2, 1, 2, 1, 0, 0, 5, 0, 0, 0, 3];
    let expected = [&front[..], &TWO, &[0; 8], &[1], &TWO, &[0; 120]];
    assert_eq!(set.to_bytes(), expected.concat());
}

#[test]
fn layout_of_a_weibull_hazard() {
    let front = [2, 0, 1, 0, 0, 0, 0, 0, 0, 0, 4];
    let expected = [&front[..], &TWO, &TWO, &[0; 129]].concat();
    assert_eq!(common::set_wear(1, 2.0, 2.0).to_bytes(), expected);
    // every scale is kept bit for bit, a NaN's too
    for bits in [1 << 63, 0x8000_0000_0000_0001, 0x7ff8_0000_0000_0001] {
        let Ok(Command::Set { hazard, .. }) =
            Command::from_bytes(&common::set_wear(1, f64::from_bits(bits), 0.0).to_bytes())
        else {
            panic!("a command's own bytes");
        };
        assert_eq!((hazard.kind(), hazard.first().to_bits()), (4, bits));
        assert_eq!(hazard.pairs(), []);
    }
}

#[test]
fn layout_of_the_others() {
    let resume = Command::Resume {
        clock: 2,
        now: 2.0,
        censor: Some(2.0),
        priority: -2,
    };
    let expected = [&[6, 2][..], &TWO, &[1], &TWO, &[0xfe, 0xff, 0xff, 0xff]];
    assert_eq!(resume.to_bytes(), expected.concat());
    let reschedule = common::reschedule(2.0);
    assert_eq!(
        reschedule.to_bytes(),
        [&[4, 0][..], &TWO, &[0; 13]].concat()
    );
    let pause = Command::Pause {
        clock: 15,
        now: 2.0,
    };
    assert_eq!(pause.to_bytes(), [&[5, 15][..], &TWO].concat());
    let remove = Command::Remove {
        clock: 1,
        cause: 0x0403_0201,
    };
    assert_eq!(remove.to_bytes(), [3, 1, 1, 2, 3, 4]);
    assert_eq!(Command::Deliver.to_bytes(), [7]);
    assert_eq!(Command::Undo.to_bytes(), [8]);
}

#[test]
fn bytes_that_are_no_command() {
    assert_eq!(Command::from_bytes(&[]), Err(Refusal::CutShort));
    for code in (9..=255).chain([0]) {
        assert_eq!(Command::from_bytes(&[code; 200]), Err(Refusal::UnknownCode));
    }
    for code in 1..=8 {
        let width = width(code).expect("a code of the table");
        for length in 1..width {
            let bytes = [&[code][..], &vec![0; length - 1]].concat();
            assert_eq!(Command::from_bytes(&bytes), Err(Refusal::CutShort));
        }
    }
}

/// What reading says to the command with one byte changed.
fn changed(command: &Command, at: usize, byte: u8) -> Result<Command, Refusal> {
    let mut bytes = command.to_bytes();
    bytes[at] = byte;
    Command::from_bytes(&bytes)
}

/// SET of cause 1 at 0.
fn set_to(hazard: Hazard) -> Command {
    Command::Set {
        clock: 0,
        cause: 1,
        priority: 0,
        hazard,
        now: 0.0,
    }
}

#[test]
fn choices_that_no_command_has() {
    let create = common::create(Policy::Restart);
    let reschedule = common::reschedule(1.0);
    let zero = set_to(Hazard::Zero);
    // policy, tie, has-entity, entity; has-censor, censor; kind, first of kind 0
    let choices =
        [(10, 2), (11, 3), (20, 2), (21, 1), (32, 1)].map(|(at, byte)| changed(&create, at, byte));
    let censors = [(10, 2), (11, 1), (18, 0x80)].map(|(at, byte)| changed(&reschedule, at, byte));
    let kinds =
        [(10, 5), (10, 255), (11, 1), (18, 0x80)].map(|(at, byte)| changed(&zero, at, byte));
    for read in choices.into_iter().chain(censors).chain(kinds) {
        assert_eq!(read, Err(Refusal::InvalidChoice));
    }
}

#[test]
fn pairs_that_no_command_has() {
    let constant = set_to(Hazard::Constant(0.5));
    let wear = set_to(Hazard::Weibull(400.0));
    let piecewise = set_to(Hazard::PiecewiseConstant {
        pairs: vec![],
        trailing: 0.0,
    });
    // count of kinds 1 and 4, a pair of theirs, the last pair's sign bit, count above 8 of kind 3
    for read in [
        changed(&constant, 27, 1),
        changed(&constant, 28, 1),
        changed(&constant, 155, 0x80),
        changed(&wear, 27, 1),
        changed(&wear, 28, 1),
        changed(&wear, 155, 0x80),
        changed(&piecewise, 27, 9),
    ] {
        assert_eq!(read, Err(Refusal::InvalidPairs));
    }
}

#[test]
fn any_bytes_come_back_from_their_inputs() {
    let mut random = Random(7);
    let (mut raw, mut whole) = (0, 0);
    for _ in 0..5_000 {
        let mut bytes = Vec::new();
        for _ in 0..random.below(6) {
            bytes.extend(any_command(&mut random).to_bytes());
        }
        for _ in 0..random.below(4) {
            let at = random.below(bytes.len() as u64 + 1) as usize;
            bytes.insert(at, random.byte());
        }
        let inputs = Input::split(&bytes);
        assert_eq!(
            inputs.iter().flat_map(Input::to_bytes).collect::<Vec<u8>>(),
            bytes
        );
        let commands = inputs
            .iter()
            .filter(|input| input.command().is_some())
            .count();
        whole += commands;
        raw += inputs.len() - commands;
    }
    assert!(raw > 1000 && whole > 1000, "{raw} {whole}");
}
