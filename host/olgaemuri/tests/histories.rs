//! Histories of edits: whatever is done to a session, and whenever it is looked at, its outcome is that of a new session with the
//! same list.

mod common;

use common::{Random, any_command, likely_command, likely_session, thresholds_only};
use olgaemuri::{Command, Input, Session};

/// All that a session tells, as words, since a NaN in a refused command is not equal to itself.
fn look(session: &Session) -> String {
    format!("{:?} {}", session.run(), session.draws())
}

/// A new session with the same list.
fn anew(session: &Session, journal: Option<usize>) -> Session {
    let mut anew = Session::new(session.thresholds());
    if let Some(length) = journal {
        anew = anew.with_journal_length(length);
    }
    anew.push_raw(session.commands());
    anew
}

/// Some bytes of a command, or others.
fn some_bytes(random: &mut Random) -> Vec<u8> {
    let mut bytes = any_command(random).to_bytes();
    bytes.truncate(random.below(bytes.len() as u64 + 1) as usize);
    bytes
}

fn step(session: &mut Session, random: &mut Random) {
    match random.below(24) {
        0..=9 => session.push(likely_command(random)),
        10 => session.push(any_command(random)),
        11 | 12 => session.push(Command::Undo),
        13 => session.push_raw(&vec![8; random.below(5) as usize]),
        14 | 15 => _ = session.undo(),
        16 | 17 => _ = session.redo(),
        18 => session.begin_group(),
        19 => session.end_group(),
        20 => session.push_thresholds(&[random.below(12) as f64 / 4.0]),
        21 if random.below(4) == 0 => session.push_raw(&some_bytes(random)),
        21 if random.below(4) == 0 => {
            let lost = random.below(40).min(session.commands().len() as u64) as usize;
            session.truncate(session.commands().len() - lost);
        }
        21 | 22 => {
            let steps = &session.inputs();
            let left = steps.len() - steps.len().min(random.below(4) as usize);
            session.truncate(steps[..left].iter().map(Input::width).sum());
        }
        _ => session.extend([
            likely_command(random),
            Command::Undo,
            likely_command(random),
        ]),
    }
}

#[test]
fn the_outcome_is_that_of_a_new_session() {
    let mut random = Random(2026);
    let (mut accepted, mut ended) = (0, 0);
    for _ in 0..300 {
        let journal = random.flip().then(|| random.below(900) as usize);
        let mut session = likely_session(&mut random, 20);
        if let Some(length) = journal {
            session = session.with_journal_length(length);
        }
        for _ in 0..60 {
            step(&mut session, &mut random);
            if random.below(8) == 0 {
                continue;
            }
            assert_eq!(look(&session), look(&anew(&session, journal)));
            if session.run().end.is_some() && random.flip() {
                session.truncate(session.run().bytes_read as usize);
                ended += 1;
            }
        }
        let answers = session.run().answers();
        accepted += answers.filter(|answer| answer.is_accepted()).count();
    }
    assert!(accepted > 3000 && ended > 200, "{accepted} {ended}");
}

/// A command that comes byte by byte is cut short until it is whole.
#[test]
fn a_command_in_pieces() {
    let mut random = Random(7);
    let mut session = thresholds_only(&mut random);
    for _ in 0..20 {
        for byte in likely_command(&mut random).to_bytes() {
            session.push_raw(&[byte]);
            assert_eq!(look(&session), look(&anew(&session, None)));
        }
    }
    assert!(session.run().end.is_none());
    // and goes byte by byte
    while !session.commands().is_empty() {
        session.truncate(session.commands().len() - 1);
        assert_eq!(look(&session), look(&anew(&session, None)));
    }
}

/// Behind an unknown code nothing is read, whatever is added, until it is taken away.
#[test]
fn bytes_behind_an_unknown_code() {
    let mut random = Random(8);
    let mut session = thresholds_only(&mut random);
    session.push(likely_command(&mut random));
    let length = session.commands().len();
    session.push_raw(&[9]);
    for _ in 0..10 {
        session.push(likely_command(&mut random));
        assert_eq!(look(&session), look(&anew(&session, None)));
    }
    assert_eq!(session.run().end_number(), 2);
    session.truncate(length);
    assert_eq!(look(&session), look(&anew(&session, None)));
    assert_eq!(session.run().end_number(), 0);
}
