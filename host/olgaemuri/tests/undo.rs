//! Undo gives back what was before, and redo what was undone: pending events, clocks, draws and applied commands with their answers.

mod common;

use common::{Random, create, likely_command, likely_session, reschedule, row_9, set};
use olgaemuri::{ANSWER_BYTES, Answer, Clock, Command, Pending, Policy, Session};

/// What a planner sees, apart from the list of steps.
#[derive(Clone, Debug, PartialEq)]
struct View {
    pending: Vec<Pending>,
    clocks: Vec<Clock>,
    draws: usize,
    applied: Vec<(Command, [u8; ANSWER_BYTES])>,
}

fn view(session: &Session) -> View {
    let run = session.run();
    let applied = run
        .applied()
        .map(|applied| (applied.command.clone(), applied.answer.to_bytes()));
    View {
        pending: run.pending(),
        clocks: run.clocks.clone(),
        draws: session.draws(),
        applied: applied.collect(),
    }
}

const PAUSE: Command = Command::Pause { clock: 0, now: 1.0 };
const RESUME: Command = Command::Resume {
    clock: 0,
    now: 3.0,
    censor: None,
    priority: 0,
};

#[test]
fn two_undos_restore_tick_40_and_two_redos_tick_60() {
    let mut session = row_9();
    let before = view(&session);
    session.extend([PAUSE, RESUME]);
    let after = view(&session);
    assert_eq!(after.pending[0].ticks, 60);
    assert!(session.undo());
    assert_eq!(session.run().pending(), []);
    assert!(session.undo());
    assert_eq!(view(&session), before);
    assert_eq!(before.pending[0].ticks, 40);
    assert!(session.redo() && session.redo() && !session.redo());
    assert_eq!(view(&session), after);
}

#[test]
fn a_draw_is_given_back() {
    let mut session = Session::new([2.0, 1.0]);
    session.extend([create(Policy::Restart), set(1, 0.5, 0.0)]);
    assert_eq!(session.draws(), 1);
    session.undo();
    assert_eq!(session.draws(), 0);
    session.extend([set(1, 0.5, 0.0), reschedule(0.0)]);
    // the threshold 2.0 again, not 1.0
    assert_eq!(session.run().pending()[0].delta, 4.0);
}

#[test]
fn edits_and_as_many_undos_change_nothing() {
    let mut random = Random(11);
    let mut undone = 0;
    for _ in 0..600 {
        let mut session = likely_session(&mut random, 25);
        let before = view(&session);
        session.extend((0..random.below(8)).map(|_| likely_command(&mut random)));
        let accepted = session.run().applied().len() - before.applied.len();
        (0..accepted).for_each(|_| assert!(session.undo()));
        undone += accepted;
        assert_eq!(view(&session), before);
    }
    assert!(undone > 600, "{undone}");
}

#[test]
fn truncate_takes_refused_commands_away_too() {
    let mut session = row_9();
    let length = session.commands().len();
    let before = session.run().clone();
    session.push(Command::Undo);
    session.push_raw(&[0, 1, 2]);
    session.truncate(length);
    assert_eq!(session, row_9());
    assert_eq!(*session.run(), before);
}

#[test]
fn what_would_be_undone_and_redone() {
    let mut session = row_9();
    assert_eq!(session.next_undo(), [&reschedule(0.0)]);
    assert_eq!(session.next_redo(), [] as [&Command; 0]);
    session.push(PAUSE);
    assert_eq!(session.next_undo(), [&PAUSE]);
    session.undo();
    assert_eq!(session.next_redo(), [&PAUSE]);
    assert_eq!(session.next_undo(), [&reschedule(0.0)]);
    // nothing is left to undo, and nothing is added to the list then
    (0..3).for_each(|_| assert!(session.undo()));
    let length = session.commands().len();
    assert!(!session.can_undo() && !session.undo());
    assert_eq!(session.commands().len(), length);
}

#[test]
fn another_command_ends_redo_and_a_refused_one_does_not() {
    let mut session = row_9();
    session.push(PAUSE);
    session.undo();
    session.push(create(Policy::Restart));
    assert_eq!(session.next_redo(), [&PAUSE]);
    session.push(RESUME);
    assert!(!session.can_redo() && !session.redo());
}

#[test]
fn a_group_is_one_step() {
    let mut session = row_9();
    let before = view(&session);
    session.begin_group();
    // the refused command between the two is no part of the step
    session.extend([PAUSE, create(Policy::Restart)]);
    session.begin_group();
    session.push(RESUME);
    session.end_group();
    session.end_group();
    let after = view(&session);
    assert_eq!(session.next_undo(), [&PAUSE, &RESUME]);
    for _ in 0..3 {
        assert!(session.undo());
        assert_eq!(view(&session), before);
        assert_eq!(session.next_redo(), [&PAUSE, &RESUME]);
        assert!(session.redo());
        assert_eq!(view(&session), after);
        assert_eq!(session.next_undo(), [&PAUSE, &RESUME]);
    }
}

#[test]
fn what_was_undone_apart_is_redone_apart() {
    let mut session = row_9();
    session.begin_group();
    session.extend([PAUSE, RESUME]);
    session.end_group();
    // the engine's UNDO knows no groups
    session.push(Command::Undo);
    assert_eq!(session.next_undo(), [&PAUSE]);
    session.undo();
    assert_eq!(session.next_redo(), [&PAUSE]);
    session.redo();
    assert_eq!(session.next_redo(), [&RESUME]);
}

#[test]
fn undo_ends_a_group_that_is_open() {
    let mut session = row_9();
    session.begin_group();
    session.extend([PAUSE, RESUME]);
    assert!(session.undo());
    assert_eq!(session, {
        let mut other = row_9();
        other.extend([PAUSE, RESUME, Command::Undo, Command::Undo]);
        other
    });
    session.push(PAUSE);
    session.push(RESUME);
    session.end_group();
    assert_eq!(session.next_undo(), [&RESUME]);
}

#[test]
fn undo_commands_in_the_list_can_be_redone_too() {
    let mut session = row_9();
    session.extend([PAUSE, Command::Undo]);
    let text = session.to_string();
    let mut read: Session = text.parse().expect("its own text");
    assert_eq!(read.next_redo(), [&PAUSE]);
    assert!(read.redo());
    assert_eq!(read.run().pending(), []);
}

#[test]
fn nothing_is_undone_behind_bytes_that_are_no_command() {
    let mut session = row_9();
    session.push_raw(&[9]);
    assert!(!session.can_undo() && !session.undo());
    session.truncate(session.commands().len() - 1);
    assert!(session.can_undo());
}

/// An editor as it should be: every state since the beginning, and the place among them.
struct Ideal {
    states: Vec<View>,
    at: usize,
}

impl Ideal {
    /// An edit, after which the session looks like this; none where nothing was accepted.
    fn edit(&mut self, view: View) {
        if view.applied.len() != self.states[self.at].applied.len() {
            self.states.truncate(self.at + 1);
            self.states.push(view);
            self.at += 1;
        }
    }
}

/// Edits alone or in groups, undos and redos in any order: after each, the session is in the state of an ideal editor, its
/// answers the same to the last bit.
#[test]
fn random_histories() {
    let mut random = Random(41);
    let (mut undone, mut redone) = (0, 0);
    for _ in 0..300 {
        let mut session = likely_session(&mut random, 10);
        let depth = session.run().applied().len();
        let mut ideal = Ideal {
            states: vec![view(&session)],
            at: 0,
        };
        for _ in 0..25 {
            match random.below(6) {
                0 | 1 => session.push(likely_command(&mut random)),
                2 => {
                    session.begin_group();
                    session.extend((0..random.below(5)).map(|_| likely_command(&mut random)));
                    session.end_group();
                }
                3 | 4 if ideal.at > 0 => {
                    assert!(session.can_undo() && session.undo());
                    ideal.at -= 1;
                    undone += 1;
                    assert_eq!(view(&session), ideal.states[ideal.at]);
                }
                _ if ideal.at + 1 < ideal.states.len() => {
                    assert!(session.can_redo() && session.redo());
                    ideal.at += 1;
                    redone += 1;
                    assert_eq!(view(&session), ideal.states[ideal.at]);
                }
                _ => assert_eq!(session.can_undo(), ideal.at > 0 || depth > 0),
            }
            ideal.edit(view(&session));
        }
    }
    assert!(undone > 1000 && redone > 300, "{undone} {redone}");
}

/// Redo is given to the engine as a new command; its answer is the one that it had before the undo.
#[test]
fn redone_commands_are_answered_as_before() {
    let mut random = Random(43);
    let mut redone = 0;
    for _ in 0..300 {
        let mut session = likely_session(&mut random, 30);
        let answers = |session: &Session| -> Vec<Answer> {
            session.run().applied().map(|step| step.answer).collect()
        };
        let before = answers(&session);
        let count = 1 + random.below(6) as usize;
        let undone = (0..count).filter(|_| session.undo()).count();
        assert!((0..undone).all(|_| session.redo()));
        assert_eq!(answers(&session), before);
        redone += undone;
    }
    assert!(redone > 500, "{redone}");
}
