//! A session on which the sides part, in words.

use crate::comparison::{Difference, through_engine};
use cases::inputs::split;
use cases::sessions::{Run, Session};
use cases::words;
use kairo_ecs_rng::{DeterministicStream, THRESHOLD_BYTES};
use reference::answer::ANSWER_BYTES;
use std::fmt::Write;

/// Lengths, thresholds, each command, and both answers where they part.
pub fn report(run: Run, session: &Session, difference: &Difference) -> String {
    let mut out = format!("{difference}\n");
    let (journal, answers, result) = (session.journal, session.answers, session.result);
    line(
        &mut out,
        &format!("journal {journal} bytes, answers {answers} bytes, result {result} bytes"),
    );
    line(&mut out, &stream(&session.stream));
    let parting = match difference {
        Difference::Byte {
            buffer: "answers",
            at,
            ..
        } => Some(at / ANSWER_BYTES),
        _ => None,
    };
    for (index, command) in split(&session.commands).into_iter().enumerate() {
        line(
            &mut out,
            &format!("{:>4}  {}", index + 1, words::input(command)),
        );
        if parting == Some(index) {
            out.push_str(&both_answers(run, session, index));
        }
    }
    out
}

fn line(out: &mut String, text: &str) {
    writeln!(out, "{text}").expect("a string takes every line");
}

fn stream(bytes: &[u8]) -> String {
    let stream = DeterministicStream::new(bytes, 0);
    let thresholds = (0..stream.len()).filter_map(|index| stream.threshold(index));
    let thresholds: Vec<String> = thresholds.map(words::float).collect();
    let left = bytes.len() % THRESHOLD_BYTES;
    format!(
        "stream of {} bytes: {}{}",
        bytes.len(),
        thresholds.join(", "),
        match left {
            0 => String::new(),
            _ => format!(" and {left} bytes"),
        }
    )
}

/// The answers of both sides at an index, where there is room for one.
fn both_answers(run: Run, session: &Session, index: usize) -> String {
    let rust = session.expected();
    let engine = through_engine(run, session);
    let sides = [("Rust", Some(rust)), ("engine", engine)];
    let mut out = String::new();
    for (name, outcome) in sides {
        let answers = outcome.map_or(Vec::new(), |outcome| outcome.answers);
        if let Some(answer) = answers.chunks_exact(ANSWER_BYTES).nth(index) {
            line(
                &mut out,
                &format!("        {name}: {}", words::answer(answer)),
            );
            line(&mut out, &format!("        {name}: {}", words::hex(answer)));
        }
    }
    out
}

#[cfg(test)]
mod tests {
    use super::*;
    use crate::comparison::difference;
    use cases::chosen_sessions;
    use reference::batch;

    /// The Rust itself, with the event byte of the third answer made 0.
    fn wrong(c: &[u8], s: &[u8], j: &mut [u8], a: &mut [u8], r: &mut [u8]) -> u8 {
        let number = batch::run(c, s, j, a, r);
        if let Some(event) = a.get_mut(2 * ANSWER_BYTES + 1) {
            *event = 0;
        }
        number
    }

    /// Row 9 of document 01's table.
    #[test]
    fn a_session_in_words() {
        let session = &chosen_sessions::sessions()[0];
        assert_eq!(difference(batch::run, session), None);
        let seen = difference(wrong, session).expect("the event byte differs");
        let text = report(wrong, session, &seen);
        for part in [
            "answers differ first at byte 81: 01 in the Rust, 00 in the engine",
            "journal 700 bytes, answers 125 bytes, result 16 bytes",
            "stream of 16 bytes: 2.0, 1.0",
            "   1  CREATE clock 0, process 1, policy 1, tie 0, scale 10.0",
            "   2  SET clock 0, cause 1, priority 0, now 0.0, kind 1, first 0.5",
            "   3  RESCHEDULE clock 0, now 0.0, has-censor 0, censor 0.0, priority 0",
            "Rust: number 0, event 1, censored 0, withdrawn 0, cause 1, delta 4.0, ticks low 40 high 0, piece 0",
            "engine: number 0, event 0, censored 0, withdrawn 0, cause 1, delta 4.0, ticks low 40 high 0, piece 0",
        ] {
            assert!(text.contains(part), "{part}\nnot in\n{text}");
        }
    }
}
