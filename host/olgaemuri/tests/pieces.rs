//! The piece of a rate curve in which an event falls (change 6 of document 02): in answers, in what an engine holds, in outcomes.

mod common;

use common::{Random, create, likely_command, reschedule};
use olgaemuri::{Command, Engine, Hazard, NO_CAUSE, Pair, Policy, Session};

fn piecewise(pairs: &[(f64, f64)], trailing: f64) -> Hazard {
    let pair = |(end, rate): &(f64, f64)| Pair {
        end: *end,
        rate: *rate,
    };
    let pairs = pairs.iter().map(pair).collect();
    Hazard::PiecewiseConstant { pairs, trailing }
}

/// Document 01's P.
fn curve() -> Hazard {
    piecewise(&[(2.0, 1.0), (5.0, 0.0)], 0.5)
}

fn set(hazard: Hazard, now: f64) -> Command {
    Command::Set {
        clock: 0,
        cause: 1,
        priority: 0,
        hazard,
        now,
    }
}

fn resume(now: f64) -> Command {
    Command::Resume {
        clock: 0,
        now,
        censor: None,
        priority: 0,
    }
}

/// One clock with one cause that draws this threshold, rescheduled at 0.
fn session(hazard: Hazard, threshold: f64) -> Session {
    let mut session = Session::new([threshold, 1.0]);
    session.extend([
        create(Policy::RetainResidual),
        set(hazard, 0.0),
        reschedule(0.0),
    ]);
    session
}

/// The event of the last command: its delta and its piece.
fn last(session: &Session) -> (f64, u8) {
    let answer = session.run().steps.last().expect("commands").answer;
    assert!(answer.event && !answer.censored, "{answer}");
    (answer.delta, answer.piece)
}

#[test]
fn worked_numbers() {
    let eight: Vec<(f64, f64)> = (1..=8).map(|end| (f64::from(end), 1.0)).collect();
    let cases = [
        (curve(), 1.0, 1.0, 0),
        // just fills the pair, and just more, which the pair without a rate does not take
        (curve(), 2.0, 2.0, 0),
        (curve(), 2.0_f64.next_up(), 5.0_f64.next_up(), 2),
        (curve(), 2.5, 6.0, 2),
        // nothing is left to use up, whatever the hazard
        (curve(), 0.0, 0.0, 0),
        (piecewise(&[(2.0, 0.0)], 0.0), 0.0, 0.0, 0),
        // negative rates count as 0
        (piecewise(&[(2.0, -1.0)], 0.5), 1.0, 4.0, 1),
        (piecewise(&[], 0.5), 2.0, 4.0, 0),
        (piecewise(&eight, 1.0), 7.5, 7.5, 7),
        (piecewise(&eight, 1.0), 8.0, 8.0, 7),
        (piecewise(&eight, 1.0), 8.5, 8.5, 8),
        (Hazard::Constant(0.5), 2.0, 4.0, 0),
        (Hazard::Gompertz(0.5), 2.0, 4.0, 0),
        (Hazard::Weibull(4.0), 4.0, 8.0, 0),
    ];
    for (hazard, threshold, delta, piece) in cases {
        let session = session(hazard.clone(), threshold);
        assert_eq!(last(&session), (delta, piece), "{hazard} {threshold}");
        let mut engine = Engine::new(session.thresholds());
        for input in session.inputs() {
            engine.execute_raw(&input.to_bytes());
        }
        let winner = engine
            .clock(0)
            .and_then(|clock| clock.winner)
            .expect("a winner");
        assert_eq!((winner.time, winner.piece), (delta, piece));
        assert_eq!(engine.queue()[0].piece, piece);
    }
}

/// A wait that is infinite makes no event, though the rate after the last pair is above 0.
#[test]
fn no_event_has_no_piece() {
    for hazard in [
        piecewise(&[(1.0, 1.0)], 5e-324),
        piecewise(&[(1.0, 1.0)], 0.0),
    ] {
        let answer = session(hazard, 3.0).run().steps[2].answer;
        assert_eq!(
            (answer.event, answer.piece, answer.is_accepted()),
            (false, 0, true)
        );
    }
}

/// The pieces of a hazard as answers number them, and the one that struck.
#[test]
fn the_piece_that_struck() {
    let pieces: Vec<_> = curve().pieces().collect();
    let told: Vec<_> = pieces
        .iter()
        .map(|piece| (piece.number, piece.from, piece.to, piece.rate))
        .collect();
    assert_eq!(
        told,
        [
            (0, 0.0, Some(2.0), 1.0),
            (1, 2.0, Some(5.0), 0.0),
            (2, 5.0, None, 0.5)
        ]
    );
    for hazard in [
        Hazard::Zero,
        Hazard::Constant(0.5),
        Hazard::Gompertz(0.5),
        Hazard::Weibull(4.0),
    ] {
        assert_eq!(hazard.pieces().count(), 0);
    }
    let mut session = session(curve(), 2.5);
    assert_eq!(session.run().pending()[0].struck, Some(pieces[2]));
    // another hazard before the event is delivered changes nothing about it
    session.extend([set(Hazard::Constant(1.0), 1.0), Command::Deliver]);
    let outcome = session.run();
    let struck: Vec<_> = outcome.steps.iter().map(|step| step.struck()).collect();
    assert_eq!(struck, [None, None, Some(pieces[2]), None, Some(pieces[2])]);
    let applied: Vec<_> = outcome.applied().map(|applied| applied.struck).collect();
    assert_eq!(applied, struck);
    assert_eq!(last(&session), (6.0, 2));
    // a constant rate has no pieces
    session.push(resume(10.0));
    assert_eq!(session.run().steps[5].struck(), None);
    assert_eq!(session.run().pending()[0].piece, 0);
}

/// It stays with the winner through SET, REMOVE and PAUSE, comes back by UNDO, and goes with DELIVER.
#[test]
fn the_winners_piece() {
    let mut engine = Engine::new([2.5, 1.0]);
    for command in [
        create(Policy::RetainResidual),
        set(curve(), 0.0),
        reschedule(0.0),
    ] {
        engine.execute(&command);
    }
    let piece = |engine: &Engine| {
        engine
            .clock(0)
            .and_then(|clock| clock.winner)
            .map(|winner| winner.piece)
    };
    let remove = Command::Remove { clock: 0, cause: 1 };
    let pause = Command::Pause { clock: 0, now: 1.0 };
    for command in [set(Hazard::Zero, 1.0), remove, pause] {
        assert!(engine.execute(&command).is_accepted());
        assert_eq!(piece(&engine), Some(2), "{command}");
        assert!(engine.undo().is_accepted());
        assert_eq!(piece(&engine), Some(2), "undone: {command}");
    }
    let delivered = engine.execute(&Command::Deliver);
    assert_eq!(
        (delivered.delta, delivered.piece, piece(&engine)),
        (6.0, 2, None)
    );
    engine.undo();
    assert_eq!(piece(&engine), Some(2));
}

/// The end of observation falls in no piece, when it is scheduled and when it comes.
#[test]
fn censored_events() {
    let mut session = Session::new([2.5]);
    let censored = Command::Reschedule {
        clock: 0,
        now: 0.0,
        censor: Some(5.5),
        priority: 0,
    };
    session.extend([
        create(Policy::Restart),
        set(curve(), 0.0),
        censored,
        Command::Deliver,
    ]);
    let outcome = session.run();
    for step in &outcome.steps[2..] {
        let answer = step.answer;
        assert_eq!(
            (answer.event, answer.cause, answer.piece),
            (true, NO_CAUSE, 0)
        );
        assert_eq!(step.struck(), None);
    }
}

/// After a pause the curve begins anew with what is left of the threshold; one that is used up comes at once, in piece 0.
#[test]
fn pauses() {
    let mut session = session(curve(), 2.5);
    session.extend([Command::Pause { clock: 0, now: 1.0 }, resume(3.0)]);
    assert_eq!(last(&session), (1.5, 0));
    session.extend([
        Command::Pause {
            clock: 0,
            now: 20.0,
        },
        resume(20.0),
    ]);
    assert_eq!(last(&session), (0.0, 0));
}

/// In random sessions each uncensored event lies in the piece that is told, up to rounding, and DELIVER repeats what was queued.
#[test]
fn every_event_lies_in_its_piece() {
    let mut random = Random(66);
    let mut seen = [0; 4];
    for _ in 0..400 {
        let mut session = Session::new(
            (0..60)
                .map(|_| random.below(40) as f64 / 8.0)
                .collect::<Vec<f64>>(),
        );
        session.extend((0..80).map(|_| match random.below(7) {
            0 => Command::Undo,
            _ => likely_command(&mut random),
        }));
        let mut queued = [None; 16];
        for applied in session
            .run()
            .applied()
            .filter(|applied| applied.answer.event)
        {
            let (answer, clock) = (applied.answer, usize::from(applied.clock));
            let number = applied.struck.map_or(0, |piece| piece.number);
            assert_eq!(answer.piece, number, "{answer}");
            if *applied.command == Command::Deliver {
                assert_eq!(queued[clock].take(), Some(applied.struck));
                continue;
            }
            queued[clock] = Some(applied.struck);
            if let Some(piece) = applied.struck {
                let from = answer.delta >= piece.from - 1e-12;
                let to = piece.to.is_none_or(|to| answer.delta <= to + 1e-12);
                assert!(from && to, "{answer} {piece:?}");
                seen[usize::from(piece.number).min(3)] += 1;
            }
        }
    }
    assert!(seen[0] > 100 && seen[1] > 20 && seen[2] > 5, "{seen:?}");
}
