//! What an outcome says beyond the answers: applied commands, pending events, clocks, draws.

mod common;

use common::{
    Random, create, create_clock, likely_session, reschedule, reschedule_on, row_9, set, set_on,
};
use olgaemuri::{Command, Entity, Hazard, NO_CAUSE, Outcome, Policy, Refusal, Session, Step, Tie};

/// Each session with what it gave.
fn random_runs(seed: u64, count: usize) -> impl Iterator<Item = (Session, Outcome)> {
    let mut random = Random(seed);
    std::iter::repeat_with(move || likely_session(&mut random, 40))
        .take(count)
        .map(|session| (session.clone(), session.run().clone()))
}

#[test]
fn applied_steps_are_the_applied_commands() {
    for (_, run) in random_runs(5, 500) {
        let from_steps: Vec<_> = run.steps.iter().filter(|step| step.applied).collect();
        assert_eq!(from_steps.len(), run.applied().len());
        for (step, applied) in from_steps.iter().zip(run.applied()) {
            assert_eq!(step.input.command(), Some(applied.command));
            assert_eq!(step.answer, applied.answer);
            assert_eq!(step.clock, Some(applied.clock));
        }
    }
}

/// The engine's promise of undo, seen from here: each applied command is answered as in a run without the others.
#[test]
fn applied_commands_alone_get_the_same_answers() {
    let mut fewer = 0;
    for (session, run) in random_runs(7, 500) {
        let mut alone = Session::new(session.thresholds());
        alone.extend(run.applied().map(|applied| applied.command.clone()));
        let again = alone.run();
        assert!(again.applied().eq(run.applied()));
        assert_eq!(again.clocks, run.clocks);
        assert_eq!(alone.draws(), session.draws());
        fewer += usize::from(again.steps.len() < run.steps.len());
    }
    assert!(fewer > 300, "{fewer}");
}

#[test]
fn made_is_withdrawn_delivered_and_pending() {
    let mut made = 0;
    for (_, run) in random_runs(6, 500) {
        for clock in &run.clocks {
            let events = clock.events;
            let pending = u64::from(events.pending.is_some());
            assert_eq!(events.made, events.withdrawn + events.delivered + pending);
            made += events.made;
        }
    }
    assert!(made > 500, "{made}");
}

#[test]
fn pending_events_are_delivered_in_their_order() {
    let (mut delivered, mut several) = (0, 0);
    for (mut session, run) in random_runs(9, 500) {
        let pending = run.pending();
        several += usize::from(pending.len() > 1);
        session.extend(pending.iter().map(|_| Command::Deliver));
        session.push(Command::Deliver);
        let after = session.run();
        let (last, steps) = after.steps.split_last().expect("a DELIVER");
        assert_eq!(last.answer.refusal, Some(Refusal::QueueEmpty));
        for (step, event) in steps[run.steps.len()..].iter().zip(&pending) {
            assert_eq!(step.clock, Some(event.clock));
            assert_eq!(step.answer.ticks, event.ticks);
            assert_eq!(
                (step.answer.cause, step.answer.censored),
                (event.cause, event.censored)
            );
            assert_eq!(step.answer.delta, event.delta);
            delivered += 1;
        }
        assert_eq!(after.pending(), []);
    }
    assert!(delivered > 300 && several > 100, "{delivered} {several}");
}

#[test]
fn draws_are_the_shortest_stream_that_suffices() {
    let mut most = 0;
    for (session, run) in random_runs(13, 300) {
        let with = |count: usize| {
            let mut shorter = Session::new(&session.thresholds()[..count])
                .with_journal_length(session.journal_length());
            shorter.extend(run.applied().map(|applied| applied.command.clone()));
            shorter
        };
        let draws = session.draws();
        let exact = with(draws);
        assert!(exact.run().applied().eq(run.applied()));
        assert_eq!(exact.draws(), draws);
        assert!(exact.run().answers().all(olgaemuri::Answer::is_accepted));
        for count in 0..draws {
            let exhausted = |step: &Step| step.answer.refusal == Some(Refusal::StreamExhausted);
            assert!(with(count).run().steps.iter().any(exhausted));
        }
        most = most.max(draws);
    }
    assert!(most > 4, "{most}");
}

#[test]
fn draws_by_policy() {
    for (policy, draws) in [(Policy::Restart, 3), (Policy::RetainResidual, 2)] {
        let mut session = Session::new([2.0, 1.0, 3.0, 4.0]);
        // at hour 1 only half of the 2.0 is used up, at hour 4 all of it
        session.extend([
            create(policy),
            set(1, 0.5, 0.0),
            set(1, 0.5, 1.0),
            set(1, 0.5, 4.0),
        ]);
        assert_eq!(session.draws(), draws);
    }
}

#[test]
fn draws_before_a_bad_threshold() {
    let mut session = Session::new([2.0, f64::NAN, 1.0]);
    session.extend([create(Policy::Restart), set(1, 0.5, 0.0), set(2, 0.5, 0.0)]);
    let third = session.run().steps[2].answer;
    assert_eq!(third.refusal, Some(Refusal::InvalidThreshold));
    assert_eq!(session.draws(), 1);
    // the cause is gone, its threshold stays drawn
    session.push(Command::Remove { clock: 0, cause: 1 });
    assert_eq!(session.draws(), 1);
}

#[test]
fn draws_of_sixteen_full_clocks() {
    let mut session = Session::new([2.0; 200]);
    for clock in 0..16 {
        session.push(create_clock(clock, Policy::RetainResidual));
        let set = |cause| set_on(clock, cause, 0.0, 0.0);
        session.extend((0..8).map(set));
    }
    let run = session.run();
    assert_eq!(
        (run.applied().len(), session.draws(), run.clocks.len()),
        (16 * 9, 16 * 8, 16)
    );
}

#[test]
fn a_clock_is_followed() {
    let mut session = row_9();
    let clock = session.run().clock(0).cloned().expect("clock 0 is present");
    assert_eq!((clock.number, clock.process, clock.scale), (0, 7, 10.0));
    assert_eq!(
        (clock.policy, clock.tie, clock.entity),
        (Policy::RetainResidual, Tie::LowestCause, None)
    );
    assert!(clock.active);
    assert_eq!(clock.causes.len(), 1);
    assert_eq!((clock.causes[0].number, clock.causes[0].set_at), (1, 0.0));
    assert_eq!(clock.causes[0].hazard, Hazard::Constant(0.5));
    session.push(Command::Pause { clock: 0, now: 1.0 });
    session.push(set(0, 0.25, 1.0));
    session.push(set(1, 0.75, 2.0));
    let clock = session.run().clock(0).cloned().expect("clock 0 is present");
    assert!(!clock.active);
    let causes: Vec<_> = clock
        .causes
        .iter()
        .map(|cause| (cause.number, cause.set_at))
        .collect();
    assert_eq!(causes, [(0, 1.0), (1, 2.0)]);
    assert_eq!((clock.events.made, clock.events.withdrawn), (1, 1));
    session.push(Command::Remove { clock: 0, cause: 0 });
    session.push(reschedule(2.0));
    session.push(Command::Deliver);
    let run = session.run();
    let clock = run.clock(0).expect("clock 0 is present");
    assert!(!clock.active);
    assert_eq!(clock.causes.len(), 1);
    assert_eq!((clock.events.made, clock.events.delivered), (2, 1));
    assert_eq!(run.clock(1), None);
}

#[test]
fn reschedule_without_an_event_leaves_the_clock_active() {
    let mut session = row_9();
    session.push(Command::Remove { clock: 0, cause: 1 });
    session.push(reschedule(1.0));
    let run = session.run();
    let clock = run.clock(0).expect("clock 0 is present");
    assert!(clock.active && clock.events.pending.is_none());
    assert_eq!(clock.events.withdrawn, 1);
}

#[test]
fn censored_events_and_other_clocks() {
    let mut session = Session::new([2.0]);
    let entity = Some(Entity {
        index: 4,
        generation: 1,
    });
    let (policy, tie) = (Policy::Restart, Tie::HighestCause);
    session.push(Command::Create {
        clock: 15,
        process: 1,
        policy,
        tie,
        scale: -1.0,
        entity,
    });
    session.push(Command::Reschedule {
        clock: 15,
        now: 1.0,
        censor: Some(2.5),
        priority: -3,
    });
    let run = session.run();
    let clock = run.clock(15).expect("clock 15 is present");
    assert_eq!((clock.scale, clock.entity, clock.tie), (1.0, entity, tie));
    let event = run.pending()[0];
    assert_eq!(
        (event.clock, event.cause, event.censored),
        (15, NO_CAUSE, true)
    );
    assert_eq!(
        (event.scheduled_at, event.delta, event.ticks),
        (1.0, 1.5, 3)
    );
    assert_eq!((event.priority, event.index), (-3, 0));
}

/// Five events at one tick: pending and delivered from the highest priority number to the lowest.
#[test]
fn urgent_events_come_first() {
    let mut session = Session::new([2.0; 5]);
    for (clock, priority) in (0..).zip([1, i32::MAX, -1, i32::MIN, 0]) {
        session.extend([
            create_clock(clock, Policy::Restart),
            set_on(clock, 100 + u32::from(clock), 0.5, 0.0),
            reschedule_on(clock, 0.0, priority),
        ]);
    }
    let pending: Vec<u8> = session.run().pending().iter().map(|e| e.clock).collect();
    assert_eq!(pending, [1, 0, 4, 2, 3]);
    for clock in pending {
        session.push(Command::Deliver);
        let applied = session.run().applied().last().expect("a delivery");
        assert_eq!(applied.answer.cause, 100 + u32::from(clock));
        assert_eq!(applied.clock, clock);
    }
}

#[test]
fn an_empty_session() {
    let session = Session::default();
    let run = session.run();
    assert_eq!(
        (run.end_number(), run.bytes_read, session.draws()),
        (0, 0, 0)
    );
    assert!(run.steps.is_empty() && run.applied().len() == 0 && run.clocks.is_empty());
}
