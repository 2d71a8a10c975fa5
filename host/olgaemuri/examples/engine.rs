// An engine that stays open: each edit is answered at once, and what the engine holds can be asked.
use olgaemuri::{Command, Engine, Hazard, Policy, Tie};

fn main() {
    let mut engine = Engine::new([2.0, 1.0]);
    let (clock, cause) = (0, 1);
    let (policy, tie, scale) = (Policy::RetainResidual, Tie::LowestCause, 10.0);
    engine.execute(&Command::Create {
        clock,
        process: 7,
        policy,
        tie,
        scale,
        entity: None,
    });
    engine.execute(&Command::Set {
        clock,
        cause,
        priority: 0,
        hazard: Hazard::Constant(0.5),
        now: 0.0,
    });
    let answer = engine.execute(&Command::Reschedule {
        clock,
        now: 0.0,
        censor: None,
        priority: 0,
    });
    println!("breakdown at tick {}", answer.ticks); // 40

    engine.execute(&Command::Pause { clock, now: 1.0 });
    for press in engine.clocks() {
        for cause in press.causes() {
            println!("used up {} of {}", cause.accumulated, cause.threshold); // 0.5 of 2
        }
    }
    engine.undo();
    assert_eq!(engine.queue()[0].ticks, answer.ticks);
}
