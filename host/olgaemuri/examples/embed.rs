// One press in a Rust program: a breakdown scheduled, an edit, and the edit taken back.
use olgaemuri::{Command, Hazard, Policy, Session, Tie};

fn main() {
    let mut session = Session::new([2.0, 1.0]); // the thresholds that causes will draw
    let (clock, cause) = (0, 1);
    let (policy, tie, scale) = (Policy::RetainResidual, Tie::LowestCause, 10.0);
    session.push(Command::Create {
        clock,
        process: 7,
        policy,
        tie,
        scale,
        entity: None,
    });
    session.push(Command::Set {
        clock,
        cause,
        priority: 0,
        hazard: Hazard::Constant(0.5),
        now: 0.0,
    });
    session.push(Command::Reschedule {
        clock,
        now: 0.0,
        censor: None,
        priority: 0,
    });
    let before = session.run().pending();
    println!("breakdown at tick {}", before[0].ticks); // 40

    session.push(Command::Pause { clock, now: 1.0 });
    assert!(session.run().pending().is_empty());
    session.undo();
    assert_eq!(session.run().pending(), before);
}
