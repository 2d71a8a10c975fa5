//! The list of sessions: its layout, that it is the same in every run, and what it covers.

mod common;

use cases::sessions::{BUFFER_LIMIT, COMMAND_LIMIT, Session, command_count};
use cases::{command_tally, lists};
use common::{checksum, numbers};
use reference::answer::ANSWER_BYTES;
use reference::command::NAMES;
use reference::command_fields::CLOCKS;
use std::collections::BTreeSet;

#[test]
fn sessions_are_the_same_each_time() {
    let bytes = lists::session_bytes(&lists::sessions());
    assert_eq!(bytes, lists::session_bytes(&lists::sessions()));
    assert_eq!(checksum(&bytes), 0xB477_30BC_BEF9_C53D);
}

/// Row 9 comes first: CREATE, SET, RESCHEDULE over the thresholds 2.0 and 1.0.
#[test]
fn layout_of_a_session() {
    let bytes = lists::session_bytes(&lists::sessions());
    let header: Vec<u32> = bytes[..24]
        .chunks(4)
        .map(|field| u32::from_le_bytes(field.try_into().expect("four bytes")))
        .collect();
    assert_eq!(header, [212, 16, 700, 125, 16, 0]);
    let (commands, rest) = bytes[24..].split_at(212);
    assert_eq!((commands[0], commands[33], commands[189]), (1, 2, 4));
    let (stream, rest) = rest.split_at(16);
    assert_eq!(stream, [2.0f64, 1.0].map(f64::to_le_bytes).concat());
    let (answers, rest) = rest.split_at(125);
    let third = &answers[2 * ANSWER_BYTES..];
    assert_eq!(third[..5], [0, 1, 0, 0, 1]);
    assert_eq!(third[ANSWER_BYTES..], [0xA5; 5]);
    let (journal, rest) = rest.split_at(700);
    assert_eq!(journal[..212], *commands);
    assert_eq!(journal[212..], [0; 488]);
    assert_eq!(rest[..16], [3u64, 212].map(u64::to_le_bytes).concat());
}

#[test]
fn no_session_is_longer_than_its_limits() {
    let sessions = lists::sessions();
    assert!(sessions.len() >= 240);
    for session in &sessions {
        assert!(command_count(&session.commands) <= COMMAND_LIMIT);
        let lengths = [
            session.commands.len(),
            session.stream.len(),
            session.journal,
        ];
        let lengths = lengths.into_iter().chain([session.answers, session.result]);
        assert!(lengths.max() <= Some(BUFFER_LIMIT));
    }
}

/// All but 1 and 13, which a run from opening never gives.
#[test]
fn every_refusal_is_among_the_sessions() {
    let tally = command_tally::sessions(&lists::sessions());
    let expected = (2..=18).filter(|number| *number != 13);
    assert_eq!(numbers(&tally), expected.collect::<Vec<u8>>());
    assert!(NAMES[1..].iter().all(|name| tally.inputs[name] >= 100));
    assert!(tally.answers["undone"] >= 500);
    assert!(tally.answers["decided by the tie choice"] >= 20);
    for rule in ["ticks", "priority", "index"] {
        let name = format!("delivered by {rule}");
        assert!(tally.answers[name.as_str()] >= 10, "{name}");
    }
}

fn some(test: impl Fn(&Session) -> bool) -> usize {
    lists::sessions()
        .iter()
        .filter(|session| test(session))
        .count()
}

#[test]
fn buffers_of_every_sort() {
    assert!(some(|s| s.expected().number == 18 && s.result != 16) >= 4);
    assert!(some(|s| s.expected().number == 18 && s.stream.len() % 8 != 0) >= 4);
    assert!(some(|s| s.expected().number == 17) >= 10);
    assert!(some(|s| s.commands.is_empty()) >= 2);
    assert!(some(|s| s.journal == 0) >= 2);
    assert!(some(|s| s.stream.is_empty()) >= 10);
}

#[test]
fn all_sixteen_clocks_are_present_and_queued_at_once() {
    let present = |session: &Session| {
        let steps = session.steps();
        let last = steps.last().map(|step| step.before.clone());
        last.is_some_and(|state| state.clocks.iter().flatten().count() == CLOCKS)
    };
    assert!(some(present) >= 5);
    let sessions = lists::sessions();
    let steps = sessions.iter().flat_map(Session::steps);
    let most = steps.map(|step| step.before.scheduler.queue.len()).max();
    assert_eq!(most, Some(CLOCKS));
}

#[test]
fn numbers_that_end_a_run() {
    let ends: BTreeSet<u8> = lists::sessions()
        .iter()
        .map(|s| s.expected().number)
        .collect();
    assert_eq!(ends, BTreeSet::from([0, 2, 3, 17, 18]));
}
