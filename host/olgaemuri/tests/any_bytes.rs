//! Sessions of any bytes, with any thresholds and journals of any length, in several threads at once.

mod common;

use common::{Random, any_command, likely_command};
use olgaemuri::{Command, Input, Outcome, Session};
use std::thread;

/// Commands with a few bytes put in between, changed or left out.
fn any_session(random: &mut Random) -> Session {
    let mut bytes = common::create(olgaemuri::Policy::Restart).to_bytes();
    for _ in 0..random.below(30) {
        let command = match random.below(8) {
            0 => any_command(random),
            1 => Command::Undo,
            _ => likely_command(random),
        };
        bytes.extend(command.to_bytes());
    }
    for _ in 0..random.below(3) {
        let at = random.below(bytes.len() as u64) as usize;
        bytes.splice(at..at + random.below(2) as usize, [random.byte()]);
    }
    bytes.truncate(bytes.len() - random.below(2) as usize);
    let thresholds = (0..random.below(6)).map(|at| if at < 3 { 1.0 } else { random.any_float() });
    let mut session = Session::new(thresholds.collect::<Vec<f64>>());
    session.push_raw(&bytes);
    if random.flip() {
        session = session.with_journal_length(random.below(1500) as usize);
    }
    session
}

fn outcomes(seed: u64) -> Vec<(Session, Outcome)> {
    let mut random = Random(seed);
    let sessions = (0..400).map(|_| any_session(&mut random));
    sessions
        .map(|session| (session.clone(), session.run().clone()))
        .collect()
}

#[test]
fn every_input_is_answered() {
    let mut counts = [0; 19];
    for (session, run) in outcomes(17) {
        let inputs: Vec<Vec<u8>> = run.steps.iter().map(|step| step.input.to_bytes()).collect();
        assert_eq!(inputs.concat(), session.commands());
        assert_eq!(run.steps.len(), session.inputs().len());
        let whole = inputs.len() - usize::from(run.end.is_some());
        assert_eq!(run.bytes_read, inputs[..whole].concat().len() as u64);
        let last = run.steps.last().map(|step| step.answer.refusal);
        assert!(run.end.is_none() || last == Some(run.end));
        run.answers()
            .for_each(|answer| counts[usize::from(answer.number())] += 1);
    }
    for never in [1, 13, 17, 18] {
        assert_eq!(counts[never], 0, "refused by {never}");
    }
    // 10 and 16 are too rare here
    for sometimes in (0..=9)
        .chain(11..=15)
        .filter(|number| ![1, 13].contains(number))
    {
        assert!(counts[sometimes] > 0, "never {sometimes}: {counts:?}");
    }
}

#[test]
fn raw_inputs_are_refused() {
    let mut raw = 0;
    for (_, run) in outcomes(19) {
        for step in run.steps {
            if let Input::Raw(bytes) = step.input {
                assert!(!step.answer.is_accepted(), "{bytes:?}");
                raw += 1;
            }
        }
    }
    assert!(raw > 50, "{raw}");
}

#[test]
fn threads_do_not_disturb_each_other() {
    // as words, since NaN is not equal to itself
    let expected = format!("{:?}", outcomes(23));
    let threads: Vec<_> = (0..4)
        .map(|_| thread::spawn(|| format!("{:?}", outcomes(23))))
        .collect();
    for thread in threads {
        assert_eq!(thread.join().expect("no panic"), expected);
    }
}
