//! Every refusal through a session. 17 and 18 need buffers that no session gives (host/olgaemuri-sys/tests/buffers.rs), 23 and 24 are
//! those of a rate (rates.rs).

mod common;

use common::{Random, any_command, create, likely_session, reschedule, row_9, set, set_wear};
use olgaemuri::{Answer, Command, Hazard, NO_CAUSE, Pair, Policy, Refusal, Session};
use std::error::Error;

/// Holds the session to it that the command is refused in this way and that nothing else changes.
fn refuses(session: &Session, command: Command, refusal: Refusal) {
    refuses_raw(session, &command.to_bytes(), refusal);
}

fn refuses_raw(session: &Session, bytes: &[u8], refusal: Refusal) {
    let (before, draws) = (session.run().clone(), session.draws());
    let mut session = session.clone();
    session.push_raw(bytes);
    let after = session.run();
    let last = after.steps.last().expect("it was answered");
    let mut refused = Answer::default();
    refused.refusal = Some(refusal);
    assert_eq!(last.answer, refused);
    assert!(!last.applied);
    assert_eq!(after.steps[..before.steps.len()], before.steps);
    assert!(after.applied().eq(before.applied()));
    assert_eq!(after.clocks, before.clocks);
    assert_eq!(session.draws(), draws);
    let ends = matches!(refusal, Refusal::UnknownCode | Refusal::CutShort);
    assert_eq!(after.end, ends.then_some(refusal));
    assert_eq!(
        after.bytes_read,
        before.bytes_read + if ends { 0 } else { bytes.len() as u64 }
    );
}

fn piecewise(pairs: Vec<Pair>) -> Command {
    let hazard = Hazard::PiecewiseConstant {
        pairs,
        trailing: 0.0,
    };
    Command::Set {
        clock: 0,
        cause: 1,
        priority: 0,
        hazard,
        now: 0.0,
    }
}

#[test]
fn by_2_and_3_what_is_no_command() {
    for code in [0, 9, 255] {
        refuses_raw(&row_9(), &[code], Refusal::UnknownCode);
    }
    let whole = set(1, 0.5, 0.0).to_bytes();
    for length in 1..whole.len() {
        refuses_raw(&row_9(), &whole[..length], Refusal::CutShort);
    }
}

#[test]
fn by_2_and_3_the_rest_is_not_read() {
    let mut session = row_9();
    session.push_raw(&[9]);
    session.push(Command::Deliver);
    let run = session.run();
    assert_eq!((run.end_number(), run.steps.len()), (2, 4));
    assert_eq!(run.steps[3].input.to_bytes(), [9, 7]);
    assert_eq!(run.pending().len(), 1);
}

#[test]
fn by_4_a_choice_off_its_list() {
    let mut bytes = create(Policy::Restart).to_bytes();
    bytes[10] = 2;
    refuses_raw(&Session::default(), &bytes, Refusal::InvalidChoice);
    let mut bytes = reschedule(0.0).to_bytes();
    bytes[11] = 1;
    refuses_raw(&row_9(), &bytes, Refusal::InvalidChoice);
    for kind in [5, 6, 255] {
        let mut bytes = set_wear(1, 400.0, 0.0).to_bytes();
        bytes[10] = kind;
        refuses_raw(&row_9(), &bytes, Refusal::InvalidChoice);
    }
}

#[test]
fn by_5_what_is_out_of_range() {
    for now in [-0.0, -1.0, f64::NAN, f64::INFINITY, 2f64.powi(40).next_up()] {
        refuses(&row_9(), reschedule(now), Refusal::OutOfRange);
        refuses(
            &row_9(),
            Command::Pause { clock: 0, now },
            Refusal::OutOfRange,
        );
    }
    for rate in [f64::NAN, f64::NEG_INFINITY, -2f64.powi(41)] {
        refuses(&row_9(), set(1, rate, 0.0), Refusal::OutOfRange);
    }
}

/// Document 02's least scale above 0.
const LEAST: f64 = 1.0 / 1_099_511_627_776.0;

#[test]
fn by_5_a_scale_of_wear() {
    let least = [
        f64::from_bits(1),
        f64::MIN_POSITIVE,
        LEAST / 2.0,
        LEAST.next_down(),
    ];
    let most = [2f64.powi(40).next_up(), f64::MAX, f64::INFINITY];
    let others = [
        f64::NAN,
        -f64::NAN,
        f64::NEG_INFINITY,
        -2f64.powi(40).next_up(),
    ];
    for scale in least.into_iter().chain(most).chain(others) {
        refuses(&row_9(), set_wear(1, scale, 0.0), Refusal::OutOfRange);
    }
    let zero = [
        0.0,
        -0.0,
        -f64::from_bits(1),
        -LEAST.next_down(),
        -2f64.powi(40),
    ];
    for scale in [LEAST, 1.0, 2f64.powi(40)].into_iter().chain(zero) {
        let mut session = row_9();
        session.push(set_wear(2, scale, 0.0));
        let run = session.run();
        assert!(run.steps.last().expect("answered").applied, "{scale}");
        let kept = &run.clocks[0].causes[1].hazard;
        assert_eq!((kept.kind(), kept.first().to_bits()), (4, scale.to_bits()));
    }
}

#[test]
fn by_6_wear_with_pairs() {
    for (at, byte) in [(27, 1), (27, 9), (27, 255), (28, 1), (43, 0x80), (155, 1)] {
        let mut bytes = set_wear(1, 400.0, 0.0).to_bytes();
        bytes[at] = byte;
        refuses_raw(&row_9(), &bytes, Refusal::InvalidPairs);
        // 5 comes first
        bytes[11..19].copy_from_slice(&LEAST.next_down().to_le_bytes());
        refuses_raw(&row_9(), &bytes, Refusal::OutOfRange);
    }
}

#[test]
fn by_6_pairs_that_are_not_valid() {
    let pair = |end| Pair { end, rate: 1.0 };
    refuses(
        &row_9(),
        piecewise(vec![pair(2.0), pair(2.0)]),
        Refusal::InvalidPairs,
    );
    refuses(&row_9(), piecewise(vec![pair(0.0)]), Refusal::InvalidPairs);
    for count in [9, 255, 256, 300] {
        let pairs = (1..=count).map(|end| pair(f64::from(end))).collect();
        refuses(&row_9(), piecewise(pairs), Refusal::InvalidPairs);
    }
}

#[test]
fn by_7_names_that_nobody_has() {
    refuses(
        &row_9(),
        Command::Pause {
            clock: 16,
            now: 0.0,
        },
        Refusal::InvalidName,
    );
    refuses(&row_9(), set(NO_CAUSE, 0.5, 0.0), Refusal::InvalidName);
    refuses(
        &row_9(),
        Command::Remove {
            clock: 0,
            cause: NO_CAUSE,
        },
        Refusal::InvalidName,
    );
}

#[test]
fn by_8_and_9_present_and_absent_clocks() {
    refuses(&row_9(), create(Policy::Restart), Refusal::ClockPresent);
    refuses(
        &row_9(),
        Command::Pause { clock: 1, now: 0.0 },
        Refusal::ClockAbsent,
    );
}

#[test]
fn by_10_a_ninth_cause() {
    let mut session = Session::new([1.0; 9]);
    session.push(create(Policy::Restart));
    session.extend((0..8).map(|cause| set(cause, 0.5, 0.0)));
    refuses(&session, set(8, 0.5, 0.0), Refusal::TooManyCauses);
}

#[test]
fn by_11_and_12_nothing_to_take() {
    refuses(&Session::default(), Command::Deliver, Refusal::QueueEmpty);
    refuses(&Session::default(), Command::Undo, Refusal::NothingApplied);
}

#[test]
fn by_14_a_journal_that_is_full() {
    let exact = row_9().with_journal_length(33 + 156 + 23);
    refuses(&exact, Command::Deliver, Refusal::JournalFull);
    let short = Session::new([2.0]).with_journal_length(32);
    refuses(&short, create(Policy::Restart), Refusal::JournalFull);
    // more than the list can fill is never needed
    let longest = row_9().with_journal_length(usize::MAX);
    assert!(longest.run().answers().all(Answer::is_accepted));
    // what UNDO frees serves again
    let mut session = exact;
    session.undo();
    session.push(reschedule(1.0));
    assert!(session.run().steps.last().expect("answered").applied);
}

#[test]
fn by_15_and_16_thresholds() {
    let mut session = Session::new([]);
    session.push(create(Policy::Restart));
    refuses(&session, set(1, 0.5, 0.0), Refusal::StreamExhausted);
    for threshold in [-1.0, 1025.0, f64::NAN, f64::INFINITY] {
        let mut session = Session::new([threshold]);
        session.push(create(Policy::Restart));
        refuses(&session, set(1, 0.5, 0.0), Refusal::InvalidThreshold);
    }
}

/// From opening 1 and 13 cannot come, and the wrapper's buffers give no room for 14, 17 and 18.
#[test]
fn never_1_13_14_17_or_18_by_accident() {
    let mut random = Random(20261115);
    let mut counts = [0; 19];
    for _ in 0..2_000 {
        let mut session = likely_session(&mut random, 30);
        session.push(any_command(&mut random));
        session.push_raw(&[random.byte(), random.byte()]);
        let run = session.run();
        run.answers()
            .for_each(|answer| counts[usize::from(answer.number())] += 1);
        counts[usize::from(run.end_number())] += 1;
    }
    for never in [1, 13, 14, 17, 18] {
        assert_eq!(counts[never], 0, "refused by {never}");
    }
    for often in [0, 2, 3, 8, 9, 11, 12, 15] {
        assert!(counts[often] > 20, "{counts:?}");
    }
}

#[test]
fn numbers_meanings_and_words() {
    let numbers: Vec<u8> = (1..=18).chain([23, 24]).collect();
    assert_eq!(Refusal::ALL.map(Refusal::number).to_vec(), numbers);
    for (refusal, number) in Refusal::ALL.into_iter().zip(numbers) {
        assert_eq!(Refusal::from_number(number), Some(refusal));
        let words = format!("refused by {number}: {}", refusal.meaning());
        let error: Box<dyn Error> = Box::new(refusal);
        assert_eq!(error.to_string(), words);
    }
    for number in [0, 255].into_iter().chain(19..=22).chain(25..=27) {
        assert_eq!(Refusal::from_number(number), None);
    }
    let mut meanings = Refusal::ALL.map(Refusal::meaning).to_vec();
    meanings.sort_unstable();
    meanings.dedup();
    assert_eq!(meanings.len(), Refusal::ALL.len());
}
