//! `edits`: how long ten thousand edits take that are given one by one, each with a look at what is pending: to an engine that stays
//! open, and to a session, which keeps the list too; then the same list as one batch run, and undos.

use olgaemuri::{Command, Engine, Hazard, Policy, Session, Tie};
use std::time::Instant;

const EDITS: u32 = 10_000;
const UNDOS: usize = 100;

/// A press with two causes.
fn press(clock: u8) -> Vec<Command> {
    let (policy, tie, scale) = (Policy::RetainResidual, Tie::LowestCause, 10.0);
    let set = |cause| Command::Set {
        clock,
        cause,
        priority: 0,
        hazard: Hazard::Constant(0.5),
        now: 0.0,
    };
    let create = Command::Create {
        clock,
        process: 7,
        policy,
        tie,
        scale,
        entity: None,
    };
    vec![create, set(1), set(2)]
}

/// An edit of one of sixteen presses: paused or resumed.
fn edit(number: u32) -> Command {
    let (clock, now) = ((number % 16) as u8, f64::from(number / 32));
    let (censor, priority) = (None, 0);
    if (number / 16).is_multiple_of(2) {
        Command::Resume {
            clock,
            now,
            censor,
            priority,
        }
    } else {
        Command::Pause { clock, now }
    }
}

/// Does the work, and prints how long it took.
fn timed<T>(what: &str, work: impl FnOnce() -> T) -> T {
    let begun = Instant::now();
    let done = work();
    println!("{what}: {:.1} ms", begun.elapsed().as_secs_f64() * 1e3);
    done
}

fn main() {
    let thresholds = [1000.0; 32];
    let begin: Vec<Command> = (0..16).flat_map(press).collect();
    let edits: Vec<Command> = (0..EDITS).map(edit).collect();

    let mut engine = Engine::new(thresholds);
    for command in &begin {
        engine.execute(command);
    }
    let mut looked = timed("10,000 edits, an engine that stays open", || {
        edits.iter().fold(0, |pending, edit| {
            engine.execute(edit);
            pending + engine.queue().len()
        })
    });

    let mut session = Session::new(thresholds);
    session.extend(begin.clone());
    let _ = session.run();
    timed("10,000 edits, a session", || {
        for edit in &edits {
            session.push(edit.clone());
            looked -= session.run().pending().len();
        }
    });
    assert_eq!(looked, 0);

    let mut batch = Session::new(thresholds);
    batch.extend(begin.into_iter().chain(edits));
    timed("the same list, one batch run", || batch.run().steps.len());
    assert_eq!(batch.run(), session.run());

    timed("100 undos, one by one", || {
        (0..UNDOS).for_each(|_| _ = engine.undo());
    });
    timed("the last 100 commands taken back together", || {
        engine.undo_last(UNDOS)
    });
}
