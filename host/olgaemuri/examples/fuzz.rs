//! `fuzz SEED SECONDS`: random texts, bytes and histories of edits through the crate for so long. Nothing may panic; what is read
//! is written and read again the same; after undo and redo a session looks as before, and at the end as a new one with its list. Prints
//! how much was tried.

#[path = "../tests/common/mod.rs"]
mod common;

use common::{Random, any_command, likely_command, likely_session};
use olgaemuri::text::Source;
use olgaemuri::{Command, Session, SessionText};
use std::process::ExitCode;
use std::time::{Duration, Instant};

fn main() -> ExitCode {
    let words: Option<Vec<u64>> = std::env::args()
        .skip(1)
        .map(|word| word.parse().ok())
        .collect();
    let Some([seed, seconds]) = words.as_deref() else {
        eprintln!("usage: fuzz SEED SECONDS");
        return ExitCode::from(2);
    };
    // xorshift has no seed 0
    let mut random = Random(seed.wrapping_add(1).max(1));
    let (begun, patience) = (Instant::now(), Duration::from_secs(*seconds));
    let mut tried = [0u64; 3];
    while begun.elapsed() < patience {
        let kinds = [texts, containers, histories];
        for (kind, tried) in kinds.iter().zip(&mut tried) {
            *tried += kind(&mut random);
        }
    }
    let [texts, containers, steps] = tried;
    println!("seed {seed}: {texts} texts, {containers} sessions in bytes, {steps} steps of edits");
    ExitCode::SUCCESS
}

const WORDS: &str = "create set remove reschedule pause resume deliver undo thresholds journal machine cause raw from \
    machine=0 machine=\"press\" cause=1 cause=\"seal\" now=1 now=-0 now=0x7ff8000000000000 censor=4 priority=-3 policy=retain \
    policy=restart tie=priority scale=10 process=7 entity=1:2 hazard=zero hazard=constant hazard=piecewise hazard=gompertz \
    hazard=weibull rate=0.5 eta=1e-3 pieces=1:2,3:4 then=0.25 \"press\" \"seal\" 0 1 2.5 1e400 inf 09 ff # = \" \\ : , é 漢 \
    \u{1b} \u{202e} \u{feff} \t";

/// A text of words of the format and others, with letters put in between, or a written session with some changed.
fn text(random: &mut Random) -> String {
    let mut text = if random.flip() {
        likely_session(random, 6).to_string()
    } else {
        let words: Vec<&str> = WORDS.split(' ').collect();
        let word = |random: &mut Random| words[random.below(words.len() as u64) as usize];
        let ends = [" ", " ", " ", " ", " ", " ", "\n", "", "\r\n"];
        (0..random.below(60))
            .map(|_| word(random).to_string() + ends[random.below(9) as usize])
            .collect()
    };
    for _ in 0..random.below(4) {
        let places: Vec<usize> = text.char_indices().map(|place| place.0).collect();
        let place = places.get(random.below(places.len() as u64 + 1) as usize);
        let letter = char::from_u32(random.below(0x300) as u32).unwrap_or(' ');
        text.insert(place.copied().unwrap_or(0), letter);
    }
    text
}

fn texts(random: &mut Random) -> u64 {
    for _ in 0..100 {
        let mut bytes = text(random).into_bytes();
        if random.below(8) == 0 {
            bytes.push(0x80 | random.byte());
        }
        match SessionText::load(&bytes, &Source::named("fuzz")) {
            Err(error) => assert!(!error.to_string().contains('\u{1b}')),
            Ok(session) => {
                let written = session.to_string();
                let again: SessionText = written.parse().expect("what was written can be read");
                assert_eq!(again.to_string(), written);
                assert_eq!(again.session().to_bytes(), session.session().to_bytes());
                let inputs = session.session().inputs();
                assert_eq!(session.lines_of(inputs.iter()).len(), inputs.len());
                let kept = session.retain_inputs(|place| place % 2 == 0);
                assert!(kept.session().commands().len() <= session.session().commands().len());
            }
        }
    }
    100
}

fn containers(random: &mut Random) -> u64 {
    for _ in 0..100 {
        let mut bytes = likely_session(random, 5).to_bytes();
        for _ in 0..random.below(3) {
            let place = random.below(bytes.len() as u64) as usize;
            bytes[place] = random.byte();
        }
        bytes.truncate(bytes.len() - random.below(2) as usize);
        if let Ok(session) = Session::from_bytes(&bytes) {
            assert_eq!(session.to_bytes(), bytes);
            assert!(session.run().steps.len() <= session.inputs().len());
            assert!(session.draws() <= session.thresholds().len());
        }
    }
    100
}

/// What stays the same under undo and redo, as words, since NaN is not equal to itself.
fn look(session: &Session) -> String {
    let applied: Vec<_> = session.run().applied().collect();
    format!("{applied:?} {:?} {}", session.run().clocks, session.draws())
}

fn histories(random: &mut Random) -> u64 {
    let mut session = likely_session(random, 8);
    for _ in 0..50 {
        match random.below(12) {
            0..=3 => session.push(likely_command(random)),
            4 => session.push(any_command(random)),
            5 => session.begin_group(),
            6 => session.end_group(),
            7 => session.push(Command::Undo),
            8 => session.truncate(random.below(session.commands().len() as u64 + 1) as usize),
            9 if random.below(20) == 0 => session.push_raw(&[random.byte()]),
            9 => session.push_thresholds(&[random.below(12) as f64 / 4.0]),
            10 => {
                session.redo();
            }
            _ => {
                let (before, undoes) = (look(&session), session.can_undo());
                assert_eq!(session.undo(), undoes);
                assert_eq!(
                    session.can_redo(),
                    undoes || !session.next_redo().is_empty()
                );
                if undoes {
                    assert!(session.redo());
                    assert_eq!(look(&session), before);
                }
            }
        }
    }
    let anew = session.with_thresholds(session.thresholds());
    assert_eq!(look(&session), look(&anew));
    50
}
