//! A session: recorded thresholds and a list of commands, run by the proved engine.

use crate::answer::Answer;
use crate::command::Command;
use crate::engine::Engine;
use crate::history::Groups;
use crate::input::Input;
use crate::outcome::Outcome;
use crate::refusal::Refusal;
use crate::text::MAX_JOURNAL;
use crate::thresholds::thresholds_to_bytes;
use std::sync::OnceLock;

/// Recorded thresholds and a list of commands, with an undo button.
///
/// A session keeps the list. When something is asked that only the engine knows, it runs the list once, as a batch. From then on an
/// [`Engine`] stays open, and each command that is added is given to it alone: a thousand edits, each looked at, cost a thousand
/// commands. The outcome is at all times the one that a run of the whole list gives. Two sessions are equal where thresholds, list and
/// journal length are.
///
/// ```
/// use olgaemuri::{Command, Hazard, Policy, Session, Tie};
///
/// // the first cause that is set will draw the threshold 2.0, the next one 1.0
/// let mut session = Session::new([2.0, 1.0]);
/// let (clock, cause) = (0, 1);
/// session.push(Command::Create {
///     clock,
///     process: 7,
///     policy: Policy::RetainResidual,
///     tie: Tie::LowestCause,
///     scale: 10.0,
///     entity: None,
/// });
/// session.push(Command::Set { clock, cause, priority: 0, hazard: Hazard::Constant(0.5), now: 0.0 });
/// session.push(Command::Reschedule { clock, now: 0.0, censor: None, priority: 0 });
///
/// // 2.0 is used up at 0.5 an hour, so the breakdown comes after 4 hours, at ten ticks an hour
/// let before = session.run().pending();
/// assert_eq!(before[0].ticks, 40);
/// assert_eq!(session.draws(), 1);
///
/// // two edits that are one step: stopped from hour 1 to hour 3
/// session.begin_group();
/// session.push(Command::Pause { clock, now: 1.0 });
/// session.push(Command::Resume { clock, now: 3.0, censor: None, priority: 0 });
/// session.end_group();
/// assert_eq!(session.run().pending()[0].ticks, 60);
///
/// // taken back: the breakdown is where it was; and done again
/// assert!(session.undo());
/// assert_eq!(session.run().pending(), before);
/// assert_eq!(session.next_redo()[0].to_string(), "pause machine=0 now=1");
/// assert!(session.redo());
/// assert_eq!(session.run().pending()[0].ticks, 60);
/// ```
///
/// # Threads and stack
///
/// Sessions are `Send` and `Sync`, and runs in several threads do not disturb each other. A run needs less than 64 KiB of stack,
/// whatever the session holds; that is measured, not proved. All other memory is allocated.
///
/// # Panics
///
/// No method panics.
#[derive(Clone, Debug, Default)]
pub struct Session {
    thresholds: Vec<f64>,
    commands: Vec<u8>,
    journal_length: Option<usize>,
    groups: Groups,
    /// What is known of the list as it is.
    outcome: OnceLock<Outcome>,
    /// An engine that was given the outcome's applied commands.
    engine: OnceLock<Engine>,
}

impl Session {
    /// A session without commands.
    pub fn new(thresholds: impl Into<Vec<f64>>) -> Self {
        Self {
            thresholds: thresholds.into(),
            ..Self::default()
        }
    }

    /// A session with this list.
    pub(crate) fn of(thresholds: Vec<f64>, commands: Vec<u8>, journal: Option<u64>) -> Self {
        Self {
            thresholds,
            commands,
            journal_length: journal.map(|length| usize::try_from(length).unwrap_or(usize::MAX)),
            ..Self::default()
        }
    }

    /// Chooses how many bytes of applied commands there is room for; a command beyond is refused by 14. Without a choice
    /// there is room for all.
    #[must_use]
    pub fn with_journal_length(mut self, length: usize) -> Self {
        self.forget();
        self.journal_length = Some(length);
        self
    }

    /// The same list and journal length over other thresholds.
    ///
    /// ```
    /// use olgaemuri::{Exponential, Session};
    ///
    /// let press = "create machine=0 policy=retain\nset machine=0 cause=1 now=0 hazard=constant rate=0.5\nreschedule machine=0 now=0\n";
    /// let press: Session = press.parse()?;
    /// let time = |stream| {
    ///     let thresholds: Vec<f64> = Exponential::new(1, stream).take(1).collect();
    ///     press.with_thresholds(thresholds).run().pending()[0].delta
    /// };
    /// let mean = (0..1000).map(time).sum::<f64>() / 1000.0;
    /// assert!((1.8..2.2).contains(&mean));
    /// # Ok::<(), olgaemuri::TextError>(())
    /// ```
    #[must_use]
    pub fn with_thresholds(&self, thresholds: impl Into<Vec<f64>>) -> Self {
        Self {
            thresholds: thresholds.into(),
            commands: self.commands.clone(),
            journal_length: self.journal_length,
            groups: self.groups.clone(),
            ..Self::default()
        }
    }

    /// Adds thresholds behind those that are there. A command that was refused by 15 may be accepted then.
    pub fn push_thresholds(&mut self, thresholds: &[f64]) {
        self.thresholds.extend_from_slice(thresholds);
        let exhausted = |answer: &Answer| answer.refusal == Some(Refusal::StreamExhausted);
        let run = self.outcome.get();
        if run.is_some_and(|run| run.answers().any(exhausted)) {
            self.forget();
        }
        if let Some(engine) = self.engine.get_mut() {
            engine.push_thresholds(thresholds);
        }
    }

    /// Adds a command at the end of the list.
    pub fn push(&mut self, command: Command) {
        self.push_raw(&command.to_bytes());
    }

    /// Adds any bytes at the end of the list. They may be commands, or none: a run ends where no whole command begins.
    pub fn push_raw(&mut self, bytes: &[u8]) {
        self.commands.extend_from_slice(bytes);
        self.answer_rest();
    }

    /// Takes the end of the list away, leaving that many bytes. Unlike [`Session::undo`] it takes refused commands and UNDOs away too.
    /// Where accepted ones are among it, the next run is one of the whole list.
    pub fn truncate(&mut self, bytes: usize) {
        self.commands.truncate(bytes);
        self.groups.truncate(bytes);
        let Some(outcome) = self.outcome.get_mut() else {
            return;
        };
        let length = self.commands.len();
        while outcome.answered_bytes() > length && outcome.take_refused() {}
        if outcome.answered_bytes() > length {
            self.forget();
        }
        self.answer_rest();
    }

    /// The thresholds.
    #[must_use]
    pub fn thresholds(&self) -> &[f64] {
        &self.thresholds
    }

    /// The list as bytes.
    #[must_use]
    pub fn commands(&self) -> &[u8] {
        &self.commands
    }

    /// The list, cut into inputs as the engine does.
    #[must_use]
    pub fn inputs(&self) -> Vec<Input> {
        Input::split(&self.commands)
    }

    /// The journal's length that was chosen, if any, for text and bytes. One longer than these may say is room for all.
    pub(crate) fn chosen_journal_length(&self) -> Option<u64> {
        let length = self.journal_length.map(|length| length as u64);
        length.filter(|length| *length <= MAX_JOURNAL)
    }

    /// The journal's length: the one chosen, or as many bytes as the list has.
    #[must_use]
    pub fn journal_length(&self) -> usize {
        self.journal_length.unwrap_or(self.commands.len())
    }

    /// What the list gives. It is run at the first call; later ones find the outcome, which [`Session::push`] goes on with.
    #[must_use]
    pub fn run(&self) -> &Outcome {
        self.outcome.get_or_init(|| {
            let stream = thresholds_to_bytes(&self.thresholds);
            // the applied commands are some of the list, so more room is never needed
            let journal_length = self.journal_length().min(self.commands.len());
            Outcome::of(&self.commands, &stream, journal_length)
        })
    }

    /// How many thresholds the applied commands have drawn; the next draw takes the one at this place.
    #[must_use]
    pub fn draws(&self) -> usize {
        self.engine().draw_position()
    }

    /// The engine that stays open, made where there is none yet.
    fn engine(&self) -> &Engine {
        self.engine.get_or_init(|| {
            let longest = self.journal_length.unwrap_or(usize::MAX);
            let applied = self.run().applied_parts(&self.commands);
            Engine::with_applied(&self.thresholds, longest, applied)
        })
    }

    /// Gives the engine what the list has behind the inputs that are answered, where an outcome is known. Bytes that were no whole
    /// command may be one with those behind them.
    fn answer_rest(&mut self) {
        let Some(run) = self.outcome.get() else {
            return;
        };
        if run.end.is_none() && run.answered_bytes() == self.commands.len() {
            return;
        }
        self.engine();
        let (Some(outcome), Some(engine)) = (self.outcome.get_mut(), self.engine.get_mut()) else {
            return;
        };
        if outcome.end.is_some() {
            outcome.take_refused();
        }
        let inputs = Input::split(&self.commands[outcome.answered_bytes()..]);
        let answers = engine.answers(&inputs);
        for (input, answer) in inputs.into_iter().zip(answers) {
            outcome.enter(input, answer);
        }
    }

    /// Forgets what is known of the list.
    fn forget(&mut self) {
        (self.outcome, self.engine) = (OnceLock::new(), OnceLock::new());
    }

    pub(crate) fn groups(&mut self) -> &mut Groups {
        &mut self.groups
    }

    pub(crate) fn group_list(&self) -> &Groups {
        &self.groups
    }
}

impl PartialEq for Session {
    fn eq(&self, other: &Self) -> bool {
        self.thresholds == other.thresholds
            && self.commands == other.commands
            && self.journal_length == other.journal_length
    }
}

impl Extend<Command> for Session {
    fn extend<T: IntoIterator<Item = Command>>(&mut self, commands: T) {
        commands.into_iter().for_each(|command| self.push(command));
    }
}

#[cfg(test)]
mod tests {
    use super::*;
    use crate::batch::counted::runs;
    use crate::engine::counted::commands;

    /// A press that is due at tick 40, under this policy.
    fn press(policy: &str) -> Session {
        let text = format!(
            "thresholds 2 1\ncreate machine=0 policy={policy} scale=10\n\
             set machine=0 cause=1 now=0 hazard=constant rate=0.5\nreschedule machine=0 now=0\n"
        );
        text.parse().unwrap()
    }

    fn line(text: &str) -> Command {
        text.parse().unwrap()
    }

    #[test]
    fn there_is_one_run_and_then_a_command_for_each_edit() {
        let mut session = press("retain");
        assert_eq!(runs(|| session.run().pending()), 1);
        let ran_again = runs(|| {
            // the engine is made of the three commands that are in force
            assert_eq!(commands(|| session.draws()), 3);
            assert_eq!(commands(|| session.draws()), 0);
            assert_eq!(commands(|| session.push(line("pause machine=0 now=1"))), 1);
            assert_eq!(commands(|| session.run().pending()), 0);
            assert_eq!(commands(|| session.undo()), 1);
            assert_eq!(commands(|| session.redo()), 1);
            assert_eq!(commands(|| session.clone().run().pending()), 0);
            // refused, and taken away
            let length = session.commands().len();
            assert_eq!(
                commands(|| session.push(line("remove machine=1 cause=1"))),
                1
            );
            assert_eq!(commands(|| session.truncate(length)), 0);
            assert_eq!(session.run().steps.len(), 6);
        });
        assert_eq!(ran_again, 0);
    }

    /// SET of a cause that is there draws under the policy retain only where its threshold is used up.
    #[test]
    fn no_draws_take_a_second_run() {
        for (policy, draws) in [("restart", 2), ("retain", 1)] {
            let mut session = press(policy);
            session.push(line("set machine=0 cause=1 now=1 hazard=zero"));
            assert_eq!(runs(|| session.draws()), 1);
            assert_eq!(session.draws(), draws);
        }
    }

    #[test]
    fn edits_that_are_looked_at_one_by_one() {
        let mut session = press("restart");
        let pending = session.run().pending();
        let edits = 10_000;
        let mut given = 0;
        let ran = runs(|| {
            given = commands(|| {
                for _ in 0..edits {
                    session.push(line("reschedule machine=0 now=0"));
                    assert_eq!(session.run().pending()[0].ticks, pending[0].ticks);
                }
            });
        });
        // each once, those before when the engine is made, and all in force at each doubling of the journal
        assert_eq!(ran, 0);
        assert!(given < 4 * edits, "{given}");
        assert_eq!(session.run().steps.len(), 3 + edits);
    }

    /// Commands that are undone together are undone by one replay.
    #[test]
    fn a_group_is_undone_at_the_cost_of_one_command() {
        let mut session = press("restart");
        let before = session.run().clone();
        session.begin_group();
        (0..100).for_each(|_| session.push(line("reschedule machine=0 now=0")));
        session.end_group();
        assert_eq!(commands(|| session.undo()), 3);
        assert_eq!(session.run().clocks, before.clocks);
        assert_eq!(commands(|| session.redo()), 100);
    }

    #[test]
    fn thresholds_are_added_without_a_run_unless_one_was_missing() {
        let mut session = press("restart");
        session.push(line("set machine=0 cause=2 now=0 hazard=zero"));
        assert_eq!(session.draws(), 2);
        assert_eq!(runs(|| session.push_thresholds(&[4.0])), 0);
        assert_eq!(
            runs(|| session.push(line("set machine=0 cause=3 now=0 hazard=zero"))),
            0
        );
        session.push(line("set machine=0 cause=4 now=0 hazard=zero"));
        assert_eq!(session.run().applied().len(), 5);
        session.push_thresholds(&[5.0]);
        assert_eq!(runs(|| session.draws()), 1);
        assert_eq!((session.run().applied().len(), session.draws()), (6, 4));
    }
}
