//! An engine that stays open gives what a session's run gives, command for command, and tells what it holds.

mod common;

use common::{Random, any_command, create, likely_command, reschedule, reschedule_on, set, set_on};
use olgaemuri::{
    Answer, CauseState, Clock, ClockState, Command, Engine, Entity, Hazard, NO_CAUSE, Pair,
    Pending, Policy, Refusal, Request, Session, Tie,
};

/// All that an engine tells.
fn look(engine: &Engine) -> String {
    let clocks: Vec<String> = engine
        .clocks()
        .map(|clock| {
            let causes: Vec<_> = clock.causes().collect();
            let settings = (
                clock.number,
                clock.process,
                clock.policy,
                clock.tie,
                clock.entity,
            );
            let schedule = (clock.active, clock.winner, clock.request, clock.last_update);
            format!("{settings:?} {} {schedule:?} {causes:?}", clock.scale)
        })
        .collect();
    let (made, drawn) = (engine.requests_made(), engine.draw_position());
    let queue: Vec<_> = engine.queue_as_made().collect();
    format!(
        "{clocks:?} {queue:?} {made} {drawn} {:?}",
        engine.applied_bytes()
    )
}

/// A command, mostly accepted, or UNDO, or any.
fn some_command(random: &mut Random) -> Command {
    match random.below(10) {
        0 => any_command(random),
        1 | 2 => Command::Undo,
        _ => likely_command(random),
    }
}

/// The engine and the run agree on what both tell.
fn assert_agree(engine: &Engine, session: &Session) {
    let run = session.run();
    let applied = run.applied().map(|applied| applied.command.clone());
    assert!(engine.applied().eq(applied));
    assert_eq!(engine.draw_position(), session.draws());
    let made: u64 = run.clocks.iter().map(|clock| clock.events.made).sum();
    assert_eq!(engine.requests_made(), made);
    let clocks: Vec<ClockState> = engine.clocks().collect();
    assert_eq!(clocks.len(), run.clocks.len());
    let pairs = clocks.iter().zip(&run.clocks);
    pairs.for_each(|(held, told)| assert_same_clock(held, told));
    let (queue, pending) = (engine.queue(), run.pending());
    assert_eq!(queue.len(), pending.len());
    let pairs = queue.iter().zip(&pending);
    pairs.for_each(|(held, told)| assert_same_event(held, told));
}

fn assert_same_clock(held: &ClockState, told: &Clock) {
    assert_eq!((held.number, held.process), (told.number, told.process));
    assert_eq!((held.policy, held.tie), (told.policy, told.tie));
    assert_eq!((held.scale, held.entity), (told.scale, told.entity));
    let request = told.events.pending.map(|event| event.index);
    assert_eq!((held.active, held.request), (told.active, request));
    let causes = held
        .causes()
        .map(|cause| (cause.number, cause.priority, cause.hazard));
    let told = told.causes.iter().cloned();
    assert!(causes.eq(told.map(|cause| (cause.number, cause.priority, cause.hazard))));
}

fn assert_same_event(held: &Request, told: &Pending) {
    assert_eq!(held.delivery_order(), told.delivery_order());
    assert_eq!((held.clock, held.cause), (told.clock, told.cause));
    assert_eq!((held.censored, held.piece), (told.censored, told.piece));
    assert_eq!(held.scheduled_at, told.scheduled_at);
    assert_eq!(held.time, told.scheduled_at + told.delta);
}

#[test]
fn answers_and_state_are_those_of_a_run() {
    let mut random = Random(91);
    let mut accepted = 0;
    for round in 0..300 {
        let thresholds: Vec<f64> = (0..12).map(|_| random.below(12) as f64 / 4.0).collect();
        let length = random.below(2500) as usize;
        let (mut engine, mut session) = (Engine::new(&thresholds), Session::new(thresholds));
        if round % 2 == 0 {
            engine = engine.with_journal_length(length);
            session = session.with_journal_length(length);
        }
        let commands: Vec<Command> = (0..60).map(|_| some_command(&mut random)).collect();
        let answers: Vec<Answer> = commands
            .iter()
            .map(|command| engine.execute(command))
            .collect();
        session.extend(commands);
        // not known before, so one batch run
        assert!(session.run().answers().eq(&answers));
        assert_agree(&engine, &session);
        accepted += answers.iter().filter(|answer| answer.is_accepted()).count();
    }
    assert!(accepted > 3000, "{accepted}");
}

#[test]
fn several_undos_are_one() {
    let mut random = Random(92);
    for _ in 0..100 {
        let mut engine = Engine::new([0.5, 1.0, 2.0, 3.0, 4.0, 0.25, 1.5, 2.5]);
        for _ in 0..40 {
            engine.execute(&likely_command(&mut random));
        }
        let mut one_by_one = engine.clone();
        let count = random.below(50) as usize;
        let undone = (0..count)
            .filter(|_| one_by_one.undo().is_accepted())
            .count();
        assert_eq!(engine.undo_last(count), undone);
        assert_eq!(look(&engine), look(&one_by_one));
    }
}

#[test]
fn an_engine_is_one_that_was_given_the_commands_in_force() {
    let mut random = Random(93);
    let mut engine = Engine::new([1.0; 64]);
    let mut long = 0;
    for _ in 0..2000 {
        engine.execute(&some_command(&mut random));
        long = long.max(engine.applied_bytes().len());
    }
    // the journal has grown more than once
    for _ in 0..500 {
        engine.execute(&reschedule(1.0));
    }
    assert!(
        engine.applied_bytes().len() > 10_000 && long > 5_000,
        "{long}"
    );
    let mut anew = Engine::new([1.0; 64]);
    for command in engine.applied() {
        assert!(anew.execute(&command).is_accepted());
    }
    assert_eq!(look(&anew), look(&engine));
    let undone = engine.undo();
    assert!(undone.is_accepted());
}

#[test]
fn fourteen_comes_exactly_where_it_is_due() {
    let width = reschedule(0.0).to_bytes().len();
    for length in [
        0,
        32,
        33,
        33 + width - 1,
        33 + width,
        4096,
        4097,
        5000,
        8192,
        9000,
    ] {
        let mut engine = Engine::new([]).with_journal_length(length);
        let created = engine.execute(&create(Policy::Restart));
        assert_eq!(created.is_accepted(), length >= 33, "{length}");
        let accepted = (0..1000).take_while(|_| engine.execute(&reschedule(0.0)).is_accepted());
        let expected = length.checked_sub(33).map_or(0, |rest| rest / width);
        assert_eq!(accepted.count(), expected, "{length}");
        let due = if length >= 33 {
            Refusal::JournalFull
        } else {
            Refusal::ClockAbsent
        };
        assert_eq!(engine.execute(&reschedule(0.0)).refusal, Some(due));
    }
}

#[test]
fn a_shorter_journal_keeps_what_has_room() {
    let mut engine = Engine::new([2.0]);
    engine.execute(&create(Policy::Restart));
    engine.execute(&set(1, 0.5, 0.0));
    let engine = engine.with_journal_length(40);
    assert_eq!((engine.applied().count(), engine.draw_position()), (1, 0));
}

#[test]
fn added_thresholds_are_drawn() {
    let mut engine = Engine::new([2.0]);
    engine.execute(&create(Policy::Restart));
    engine.execute(&set(1, 0.5, 0.0));
    let before = look(&engine);
    let refused = engine.execute(&set(2, 0.5, 0.0));
    assert_eq!(refused.refusal, Some(Refusal::StreamExhausted));
    engine.push_thresholds(&[8.0]);
    assert_eq!(look(&engine), before);
    assert!(engine.execute(&set(2, 0.5, 0.0)).is_accepted());
    let clock = engine.clock(0).unwrap();
    let thresholds: Vec<f64> = clock.causes().map(|cause| cause.threshold).collect();
    assert_eq!(thresholds, [2.0, 8.0]);
}

#[test]
fn bytes_that_are_no_command() {
    let mut engine = Engine::new([]);
    for (bytes, refusal) in [
        (&[][..], Refusal::CutShort),
        (&[0], Refusal::UnknownCode),
        (&[9, 9], Refusal::UnknownCode),
        (&[5, 0], Refusal::CutShort),
        (&[7, 1, 2], Refusal::QueueEmpty),
        (&[8], Refusal::NothingApplied),
    ] {
        assert_eq!(engine.execute_raw(bytes).refusal, Some(refusal));
    }
    assert_eq!(engine.undo().refusal, Some(Refusal::NothingApplied));
    assert_eq!(engine.undo_last(3), 0);
    assert_eq!(engine.applied().count(), 0);
}

/// A press with two causes, one of them piecewise, that is due at its censor time.
const PRESS: &str = "thresholds 2 4\n\
    create machine=15 process=7 policy=restart tie=priority scale=10 entity=3:9\n\
    set machine=15 cause=9 now=1 hazard=piecewise pieces=2:0.25,3:-0 then=0.5 priority=6\n\
    set machine=15 cause=2 now=1 hazard=constant rate=0\n\
    reschedule machine=15 now=1.5 censor=4 priority=-1\n";

/// An engine that was given the press.
fn given_press() -> Engine {
    let session: Session = PRESS.parse().unwrap();
    let mut engine = Engine::new(session.thresholds());
    for input in session.inputs() {
        assert!(engine.execute_raw(&input.to_bytes()).is_accepted());
    }
    engine
}

#[test]
fn every_field_of_a_clock() {
    let engine = given_press();
    let clock = engine.clock(15).unwrap();
    let entity = Entity {
        index: 3,
        generation: 9,
    };
    assert_eq!((clock.number, clock.process, clock.scale), (15, 7, 10.0));
    assert_eq!(
        (clock.policy, clock.tie, clock.entity),
        (Policy::Restart, Tie::ExplicitPriority, Some(entity))
    );
    assert_eq!((clock.active, clock.request), (true, Some(0)));
    let winner = clock.winner.unwrap();
    assert_eq!(
        (winner.cause, winner.time, winner.piece),
        (NO_CAUSE, 4.0, 0)
    );
    assert_eq!(clock.last_update, 1.5);
    assert!([0, 14, 16, 255].map(|number| engine.clock(number).is_none()) == [true; 4]);
}

#[test]
fn every_field_of_a_cause() {
    let engine = given_press();
    let causes: Vec<CauseState> = engine.clock(15).unwrap().causes().collect();
    let [first, second] = causes.as_slice() else {
        panic!("{causes:?}");
    };
    assert_eq!((first.number, &first.hazard), (2, &Hazard::Constant(0.0)));
    assert_eq!((second.number, second.priority), (9, 6));
    let pieces = [(2.0, 0.25), (3.0, -0.0)].map(|(end, rate)| Pair { end, rate });
    assert_eq!(
        (second.hazard.pairs(), second.hazard.first()),
        (&pieces[..], 0.5)
    );
    assert_eq!((second.threshold, second.accumulated), (2.0, 0.0));
    assert_eq!(second.interval_start, 1.0);
}

#[test]
fn every_field_of_a_request() {
    let request = given_press().queue()[0];
    assert_eq!((request.clock, request.ticks), (15, 40));
    assert_eq!((request.priority, request.index), (-1, 0));
    assert_eq!((request.cause, request.censored), (NO_CAUSE, true));
    assert_eq!((request.scheduled_at, request.time), (1.5, 4.0));
    assert_eq!(request.piece, 0);
}

#[test]
fn the_queue_in_both_orders() {
    let mut engine = Engine::new([2.0; 4]);
    for (clock, priority) in [(0, 0), (1, 5), (2, -5), (3, 5)] {
        engine.execute(&common::create_clock(clock, Policy::Restart));
        engine.execute(&set_on(clock, 1, 0.5, 0.0));
        engine.execute(&reschedule_on(clock, 0.0, priority));
    }
    let clocks =
        |queue: Vec<Request>| -> Vec<u8> { queue.iter().map(|request| request.clock).collect() };
    assert_eq!(clocks(engine.queue_as_made().collect()), [0, 1, 2, 3]);
    assert_eq!(clocks(engine.queue()), [1, 3, 0, 2]);
    for clock in [1, 3, 0, 2] {
        assert_eq!(engine.queue()[0].clock, clock);
        assert!(engine.execute(&Command::Deliver).event);
    }
    assert!(engine.queue().is_empty());
}

#[test]
fn engines_go_from_thread_to_thread() {
    fn is_shared<T: Send + Sync + Clone + std::fmt::Debug>() {}
    is_shared::<Engine>();
    let mut engine = Engine::new([2.0]);
    engine.execute(&create(Policy::Restart));
    let told = std::thread::spawn(move || format!("{engine:?}"))
        .join()
        .unwrap();
    assert!(told.starts_with("Engine { applied: [Create"), "{told}");
}
