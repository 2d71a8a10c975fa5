//! The sessions that the engine is compared on show every kind that they are meant to, and every refusal that a run can give.

use cases::random::Random;
use cases::session_coverage::Coverage;
use cases::session_kinds;
use reference::answer::ANSWER_BYTES;
use reference::{batch, unvalidated};

/// The seed of the short run, and a small part of its sessions.
const SEED: u64 = 20_261_115;
const SESSIONS: usize = 4000;

/// Each with the least number of sessions among the random ones that show it.
const KINDS: [(&str, usize); 37] = [
    ("many undos", 100),
    ("undone draw", 100),
    ("undone request", 100),
    ("undo at once", 100),
    ("undos in a row", 100),
    ("undo to replay", 100),
    ("no room for an undo", 10),
    ("tie", 100),
    ("by priority", 50),
    ("by sign", 50),
    ("highest first", 50),
    ("lowest second", 50),
    ("by index", 50),
    ("all clocks full", 10),
    ("queue full", 10),
    ("tiny journal", 100),
    ("short stream", 100),
    ("bad threshold", 100),
    ("junk bytes", 100),
    ("command cut short", 100),
    ("damaged field", 100),
    ("extreme float", 100),
    ("kind 4 wins", 100),
    ("kind 4 settled", 100),
    ("kind 4 is Zero", 50),
    ("smallest scale", 10),
    ("scale too small", 20),
    ("piece queued", 100),
    ("trailing piece", 100),
    ("piece delivered", 100),
    ("piece replaced", 100),
    ("piece kept without event", 10),
    ("piece given back", 100),
    ("answers cut", 100),
    ("answer cut within", 50),
    ("threshold cut", 50),
    ("other result", 50),
];

fn random_sessions() -> impl Iterator<Item = cases::sessions::Session> {
    let mut random = Random::new(SEED);
    (0..SESSIONS).map(move |_| session_kinds::random(&mut random))
}

#[test]
fn every_kind_and_every_refusal_occurs() {
    let mut coverage = Coverage::default();
    random_sessions().for_each(|session| coverage.add(&session));
    for (kind, least) in KINDS {
        let shown = coverage.sessions.get(kind).copied().unwrap_or(0);
        assert!(
            shown >= least,
            "{kind}: {shown} sessions, at least {least} expected"
        );
    }
    assert_eq!(coverage.sessions.len(), KINDS.len());
    for number in (2..=18).filter(|number| *number != 13) {
        let given = coverage.numbers.get(&number).copied().unwrap_or(0);
        assert!(given >= 20, "{number}: {given} times");
    }
    assert!(!coverage.numbers.contains_key(&1) && !coverage.numbers.contains_key(&13));
}

/// Every length of every buffer of one session, up to more than it needs.
#[test]
fn buffers_are_cut_at_every_length() {
    let sessions = session_kinds::chosen();
    let has = |test: &dyn Fn(&cases::sessions::Session) -> bool| sessions.iter().any(test);
    assert!((0..=403).all(|length| has(&|s| s.commands.len() == length && s.journal == 700)));
    assert!((0..=24).all(|length| has(&|s| s.stream.len() == length)));
    assert!((0..=404).all(|length| has(&|s| s.journal == length)));
    let answers = 0..=8 * ANSWER_BYTES + 5;
    assert!(
        answers
            .into_iter()
            .all(|length| has(&|s| s.answers == length))
    );
    assert!((0..=33).all(|length| has(&|s| s.result == length)));
}

/// The form that the benchmark times gives the same bytes.
#[test]
fn the_unvalidated_run_is_the_same() {
    for session in session_kinds::chosen()
        .into_iter()
        .chain(random_sessions().take(2000))
    {
        let outcomes = [batch::run, unvalidated::run].map(|run| session.through(run));
        assert!(outcomes[0] == outcomes[1], "{session:?}");
    }
}
