//! The sessions that the engine is compared on: chosen ones, one of these cut at every length, then random ones of every kind.

use crate::chosen_histories::{constant, pause, reschedule, resume};
use crate::chosen_sessions::{self, table_clock};
use crate::random::Random;
use crate::sessions::Session;
use crate::{chosen_pieces, equal_ticks, full_clocks, random_sessions, refused_sessions};
use kairo_ecs_rng::THRESHOLD_BYTES;
use reference::command::Command;

/// The chosen sessions, and one with each buffer at every length up to more than it needs.
pub fn chosen() -> Vec<Session> {
    let mut all = chosen_sessions::sessions();
    all.extend(refused_sessions::sessions());
    all.extend(chosen_pieces::rounded_sessions());
    all.extend(cut_at_every_length(&cut_session()));
    all
}

/// Rows 9 and 10 with a delivery and an undo.
fn cut_session() -> Session {
    let commands = [
        table_clock(),
        constant(1, 0.5, 0.0),
        reschedule(0.0),
        pause(1.0),
        resume(3.0),
        Command::Deliver,
        Command::Undo,
        constant(1, 0.25, 4.0),
    ];
    chosen_sessions::of(&[2.0, 1.0], &commands)
}

/// Each buffer alone; the others are whole.
fn cut_at_every_length(whole: &Session) -> Vec<Session> {
    let commands = 0..=whole.commands.len();
    let stream = 0..=whole.stream.len() + THRESHOLD_BYTES;
    let journal = 0..=whole.commands.len() + 1;
    let answers = 0..=whole.answers;
    let result = 0..=2 * whole.result + 1;
    let with = |length: usize, set: fn(&mut Session, usize)| {
        let mut cut = whole.clone();
        set(&mut cut, length);
        cut
    };
    commands
        .map(|n| with(n, |cut, n| cut.commands.truncate(n)))
        .chain(stream.map(|n| with(n, |cut, n| cut.stream.resize(n, 0))))
        .chain(journal.map(|n| with(n, |cut, n| cut.journal = n)))
        .chain(answers.map(|n| with(n, |cut, n| cut.answers = n)))
        .chain(result.map(|n| with(n, |cut, n| cut.result = n)))
        .collect()
}

/// Makes a random session.
pub type Maker = fn(&mut Random) -> Session;

/// The kinds of random sessions, each with how many of a thousand are of it.
pub const KINDS: [(&str, u64, Maker); 5] = [
    ("full-clocks", 5, full_clocks::session),
    ("junk", 50, with_junk),
    ("cuts", 45, with_cuts),
    ("equal-ticks", 50, equal_ticks::session),
    ("as-listed", 850, random_sessions::session),
];

/// A session of any kind, by their shares.
pub fn random(random: &mut Random) -> Session {
    let mut rest = random.below(1000);
    for (_, share, maker) in KINDS {
        if rest < share {
            return maker(random);
        }
        rest -= share;
    }
    unreachable!("the shares are a thousand")
}

/// Some bytes of the commands and of the stream are any bytes; in one of five all bytes of the commands are, most of them small.
fn with_junk(random: &mut Random) -> Session {
    let mut session = random_sessions::session(random);
    if random.chance(20) {
        let small = || random.below(16) as u8 ^ (random.word() as u8 & 0x88);
        session.commands.fill_with(small);
    }
    put_junk(random, &mut session.commands);
    put_junk(random, &mut session.stream);
    session
}

/// Any byte at some places.
fn put_junk(random: &mut Random, bytes: &mut [u8]) {
    for _ in 0..random.below(6) {
        if !bytes.is_empty() {
            let at = random.index(bytes.len());
            bytes[at] = random.word() as u8;
        }
    }
}

/// Every buffer but the result of any length up to its own; most streams of whole thresholds.
fn with_cuts(random: &mut Random) -> Session {
    let mut session = random_sessions::session(random);
    let commands = random.index(session.commands.len() + 1);
    session.commands.truncate(commands);
    let stream = random.index(session.stream.len() + 1);
    let cut_within = random.chance(20);
    let over = if cut_within {
        0
    } else {
        stream % THRESHOLD_BYTES
    };
    session.stream.truncate(stream - over);
    session.journal = random.index(session.journal + 1);
    session.answers = random.index(session.answers + 1);
    session
}
