//! The worked rows that the batch run can show: 3, 4 and 6 to 12. All twelve are proved in crates/engine/specs/Rows.antt.

use crate::common::{create, reschedule, row_9, set};
use crate::document::{blocks, table};
use olgaemuri::{Answer, Command, Hazard, Pair, Policy, Session, Tie};
use std::io::Write;
use std::process::{self, Stdio};

/// The document's results of a row, in order.
fn results(row: &str) -> Vec<&'static str> {
    let rows = table("| row | given | result | how |");
    rows.iter()
        .filter(|cells| cells[0] == row)
        .map(|cells| cells[2])
        .collect()
}

/// The document's pieces (2, 1), (5, 0) and then 0.5.
fn p() -> Hazard {
    let pairs = [(2.0, 1.0), (5.0, 0.0)].map(|(end, rate)| Pair { end, rate });
    Hazard::PiecewiseConstant {
        pairs: pairs.to_vec(),
        trailing: 0.5,
    }
}

fn set_hazard(cause: u32, priority: u32, hazard: Hazard, now: f64) -> Command {
    Command::Set {
        clock: 0,
        cause,
        priority,
        hazard,
        now,
    }
}

/// The last answer of a session with these thresholds, behind CREATE of clock 0.
fn last(thresholds: &[f64], commands: Vec<Command>) -> Answer {
    let mut session = Session::new(thresholds);
    session.push(create(Policy::RetainResidual));
    session.extend(commands);
    *session.run().answers().last().expect("an answer")
}

#[test]
fn row_3_by_what_a_set_leaves() {
    // P has used up so much of 4 at its second SET; what is left is then used up at rate 1
    let shown = [2.0, 6.0].map(|now| {
        let commands = vec![
            set_hazard(1, 0, p(), 0.0),
            set(1, 1.0, now),
            reschedule(now),
        ];
        (4.0 - last(&[4.0], commands).delta).to_string()
    });
    assert_eq!(shown.to_vec(), results("3"));
}

#[test]
fn rows_4_and_6_by_a_reschedule() {
    let wait = |threshold, hazard| {
        let answer = last(
            &[threshold],
            vec![set_hazard(1, 0, hazard, 0.0), reschedule(0.0)],
        );
        if answer.event {
            answer.delta.to_string()
        } else {
            "none".to_string()
        }
    };
    assert_eq!([wait(2.0, p()), wait(2.5, p())].to_vec(), results("4"));
    assert_eq!(
        [wait(0.0, Hazard::Zero), wait(1.0, Hazard::Zero)].to_vec(),
        results("6")
    );
}

#[test]
fn row_7_by_a_reschedule() {
    let winners = Tie::ALL.map(|tie| {
        let mut session = Session::new([2.0, 2.0]);
        let (clock, process, policy) = (0, 0, Policy::Restart);
        session.push(Command::Create {
            clock,
            process,
            policy,
            tie,
            scale: 1.0,
            entity: None,
        });
        session.push(set_hazard(3, 1, Hazard::Constant(0.5), 0.0));
        session.push(set_hazard(7, 9, Hazard::Constant(0.5), 0.0));
        session.push(reschedule(0.0));
        let answer = *session.run().answers().last().expect("an answer");
        assert_eq!(answer.delta, 4.0);
        answer.cause.to_string()
    });
    assert_eq!(winners.to_vec(), results("7"));
}

#[test]
fn row_8_by_times_of_events() {
    // a threshold of 0 is due at once, so the ticks are those of now times the scale
    let ticks = |now: f64, scale| {
        let mut session = Session::new([0.0]);
        let (clock, process, policy, tie) = (0, 0, Policy::Restart, Tie::LowestCause);
        session.push(Command::Create {
            clock,
            process,
            policy,
            tie,
            scale,
            entity: None,
        });
        session.extend([set(1, 1.0, now), reschedule(now)]);
        session.run().pending()[0].ticks
    };
    let small = [0.5, 2.5, 0.5f64.next_down()].map(|now| ticks(now, 1.0).to_string());
    assert_eq!(small, results("8")[..3]);
    let large = ticks(2f64.powi(40), 2f64.powi(24));
    assert_eq!(
        (large as u64, (large >> 64) as u64, results("8")[3]),
        (0, 1, "2^64")
    );
}

#[test]
fn row_9_and_its_bytes() {
    let answer = *row_9().run().answers().last().expect("an answer");
    let shown: Vec<String> = answer.to_bytes().map(|byte| format!("{byte:02x}")).to_vec();
    let document: Vec<&str> = blocks()[1].split_whitespace().collect();
    assert_eq!(document, shown);
    assert_eq!(results("9"), [format!("tick {}", answer.ticks)]);
}

/// What the command line gives for a session in text, as CSV.
fn csv(session: &str) -> String {
    let mut program = process::Command::new(env!("CARGO_BIN_EXE_olgaemuri"));
    program
        .args(["run", "-", "--csv"])
        .stdin(Stdio::piped())
        .stdout(Stdio::piped());
    let mut child = program.spawn().expect("the command line");
    let mut input = child.stdin.take().expect("a pipe");
    input.write_all(session.as_bytes()).expect("it reads");
    drop(input);
    String::from_utf8(child.wait_with_output().expect("it ends").stdout).expect("text")
}

#[test]
fn row_9_in_text() {
    let csv = csv(blocks()[0]);
    let place = csv
        .lines()
        .next()
        .and_then(|head| head.split(',').position(|name| name == "ticks"));
    let ticks = csv
        .lines()
        .last()
        .and_then(|line| line.split(',').nth(place?));
    assert_eq!(
        results("9"),
        [format!("tick {}", ticks.expect("the column"))]
    );
}

#[test]
fn rows_10_to_12() {
    let tick = |session: &Session| format!("tick {}", session.run().pending()[0].ticks);
    let mut session = row_9();
    session.push(Command::Pause { clock: 0, now: 1.0 });
    let (clock, now, censor, priority) = (0, 3.0, None, 0);
    session.push(Command::Resume {
        clock,
        now,
        censor,
        priority,
    });
    // 3 hours at 0.5 are left of the threshold 2
    let left = session.run().pending()[0].delta * 0.5;
    let accumulated = format!("accumulated {}", 2.0 - left);
    let resumed = tick(&session);
    session.undo();
    session.undo();
    assert_eq!(results("10"), [accumulated, resumed, tick(&session)]);

    let mut session = row_9();
    session.push(set(1, 0.5, 4.0));
    assert_eq!((session.draws(), results("11")), (2, vec!["draws 1.0"]));

    let mut session = Session::new([2.0, 1.0]);
    session.extend([create(Policy::RetainResidual), set(1, 0.5, 0.0)]);
    session.push(Command::Reschedule {
        clock,
        now: 0.0,
        censor: Some(4.0),
        priority,
    });
    let answer = *session.run().answers().last().expect("an answer");
    assert_eq!(Some(&answer), row_9().run().answers().last());
    assert_eq!(
        (answer.censored, results("12")),
        (false, vec!["not censored"])
    );
}
