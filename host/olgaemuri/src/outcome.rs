//! What a run of a session gives: every answer, the applied commands, and what follows from these.

use crate::answer::Answer;
use crate::batch;
use crate::clock::{Before, Clock, enter, revert};
use crate::command::Command;
use crate::hazard::Piece;
use crate::input::{Input, parts};
use crate::ledger::Pending;
use crate::refusal::Refusal;

/// An input with its answer.
#[derive(Clone, Debug, PartialEq)]
#[non_exhaustive]
pub struct Step {
    /// What was given.
    pub input: Input,
    /// Where its bytes begin in the list.
    pub begins: usize,
    /// What the engine said.
    pub answer: Answer,
    /// The clock that it names or, for an accepted DELIVER, the clock whose event is delivered.
    pub clock: Option<u8>,
    /// Whether it is an accepted command that was not undone later: one of [`Outcome::applied`].
    pub applied: bool,
    /// Few have one, so it takes little room.
    struck: Option<Box<Piece>>,
}

impl Step {
    /// The piece of the rate curve in which the event falls that was scheduled or delivered, where its cause's hazard was piecewise
    /// constant when it was scheduled.
    #[must_use]
    pub fn struck(&self) -> Option<Piece> {
        self.struck.as_deref().copied()
    }
}

/// An applied command. A run of the applied commands alone gives it the same answer.
#[derive(Clone, Copy, Debug, PartialEq)]
#[non_exhaustive]
pub struct Applied<'a> {
    /// The command.
    pub command: &'a Command,
    /// Its answer.
    pub answer: Answer,
    /// The clock that it names or, for DELIVER, the clock whose event is delivered.
    pub clock: u8,
    /// As [`Step::struck`].
    pub struck: Option<Piece>,
}

/// What a run gave.
#[derive(Clone, Debug, Default, PartialEq)]
#[non_exhaustive]
pub struct Outcome {
    /// Why the run ended before the list's end: 2 or 3, which the last step's answer has too.
    pub end: Option<Refusal>,
    /// How many bytes of the list were read as whole commands.
    pub bytes_read: u64,
    /// Each input that was answered, in order.
    pub steps: Vec<Step>,
    /// The clocks that are present, by ascending number.
    pub clocks: Vec<Clock>,
    /// The places of the applied commands among the steps, and what each has changed.
    applied: Vec<(usize, Before)>,
    /// The undone commands that can be given again, the next one last: their places and those of their UNDOs.
    undone: Vec<(usize, usize)>,
}

impl Outcome {
    /// The number that ended the run; 0 at the list's end.
    #[must_use]
    pub fn end_number(&self) -> u8 {
        self.end.map_or(0, Refusal::number)
    }

    /// The answers, in order.
    pub fn answers(&self) -> impl Iterator<Item = &Answer> {
        self.steps.iter().map(|step| &step.answer)
    }

    /// The commands that are in force: those accepted and not undone.
    pub fn applied(&self) -> impl DoubleEndedIterator<Item = Applied<'_>> + ExactSizeIterator {
        self.applied.iter().map(|(place, _)| {
            let step = &self.steps[*place];
            Applied {
                command: step.input.command().expect("an applied step is a command"),
                answer: step.answer,
                clock: step.clock.expect("an applied command has a clock"),
                struck: step.struck(),
            }
        })
    }

    /// The pending events in the order in which DELIVER would take them.
    #[must_use]
    pub fn pending(&self) -> Vec<Pending> {
        let mut pending: Vec<Pending> = self
            .clocks
            .iter()
            .filter_map(|clock| clock.events.pending)
            .collect();
        pending.sort_by_key(Pending::delivery_order);
        pending
    }

    /// The clock with this number, where it is present.
    #[must_use]
    pub fn clock(&self, number: u8) -> Option<&Clock> {
        self.clocks.iter().find(|clock| clock.number == number)
    }

    /// The applied commands, the last one first, and where each begins in the list.
    pub(crate) fn applied_last_first(&self) -> impl Iterator<Item = (&Step, usize)> {
        let places = self.applied.iter().rev().map(|(place, _)| *place);
        places.map(|place| (&self.steps[place], self.steps[place].begins))
    }

    /// The undone commands that can be given again, the next one first, and where the UNDO of each begins in the list.
    pub(crate) fn undone_next_first(&self) -> impl Iterator<Item = (&Step, usize)> {
        let undone = self.undone.iter().rev();
        undone.map(|(place, undo)| (&self.steps[*place], self.steps[*undo].begins))
    }

    /// Runs the list from opening.
    pub(crate) fn of(commands: &[u8], stream: &[u8], journal_length: usize) -> Self {
        let inputs = parts(commands).count();
        let ran = batch::run(commands, inputs, stream, journal_length);
        let mut outcome = Self {
            steps: Vec::with_capacity(inputs),
            ..Self::default()
        };
        for (part, answer) in parts(commands).zip(ran.answers()) {
            outcome.enter(Input::of(part), answer);
        }
        debug_assert_eq!((outcome.end, outcome.bytes_read), (ran.end, ran.bytes_read));
        debug_assert!(
            ran.journal
                .is_none_or(|journal| outcome.is_of_journal(&journal, commands))
        );
        outcome
    }

    /// Whether the engine's journal holds the applied commands, and zeros behind them.
    fn is_of_journal(&self, journal: &[u8], commands: &[u8]) -> bool {
        let applied: Vec<u8> = self.applied_parts(commands).flatten().copied().collect();
        let rest = journal.strip_prefix(applied.as_slice());
        rest.is_some_and(|rest| rest.iter().all(|byte| *byte == 0))
    }

    /// The bytes of each applied command, in the list that gave this outcome.
    pub(crate) fn applied_parts<'a>(
        &'a self,
        commands: &'a [u8],
    ) -> impl Iterator<Item = &'a [u8]> + Clone {
        let steps = self.applied.iter().map(|(place, _)| &self.steps[*place]);
        steps.map(|step| &commands[step.begins..][..step.input.width()])
    }

    /// Where the input begins that comes next in the list.
    pub(crate) fn answered_bytes(&self) -> usize {
        let last = self.steps.last();
        last.map_or(0, |step| step.begins + step.input.width())
    }

    /// Adds the input that comes next, with its answer. An undone command leaves the clocks as the engine's UNDO leaves the queue.
    pub(crate) fn enter(&mut self, input: Input, answer: Answer) {
        let begins = self.answered_bytes();
        let mut step = Step {
            clock: input.command().and_then(Command::clock),
            applied: false,
            struck: None,
            input,
            begins,
            answer,
        };
        match step.input.command().filter(|_| answer.is_accepted()) {
            Some(Command::Undo) => self.undo(),
            Some(command) => {
                let before = enter(&mut self.clocks, command, &answer);
                (step.clock, step.applied) = (Some(before.clock), true);
                let event = self.event(command, &before).filter(|_| answer.event);
                step.struck = event.and_then(|event| event.struck).map(Box::new);
                self.applied.push((self.steps.len(), before));
                self.give_again(&step.input);
            }
            None => {}
        }
        self.end = answer.refusal.filter(|refusal| refusal.ends_a_run());
        if self.end.is_none() {
            self.bytes_read += step.input.width() as u64;
        }
        self.steps.push(step);
    }

    /// The event that an entered DELIVER has delivered, or that is pending after another command.
    fn event<'a>(&'a self, command: &Command, before: &'a Before) -> Option<&'a Pending> {
        match command {
            Command::Deliver => before.pending(),
            _ => self.clock(before.clock)?.events.pending.as_ref(),
        }
    }

    fn undo(&mut self) {
        let last = self.applied.pop();
        let (place, before) = last.expect("UNDO is accepted only after a command");
        revert(&mut self.clocks, before);
        self.steps[place].applied = false;
        self.undone.push((place, self.steps.len()));
    }

    /// The undone command that comes next is done again by an equal one; by another all that were undone are gone.
    fn give_again(&mut self, input: &Input) {
        let next = self.undone.pop();
        let same = |place: usize| self.steps[place].input.to_bytes() == input.to_bytes();
        if next.is_some_and(|(place, _)| !same(place)) {
            self.undone.clear();
        }
    }

    /// Takes the last step away where it was refused, which has changed nothing. Returns whether it was.
    pub(crate) fn take_refused(&mut self) -> bool {
        let last = self.steps.pop_if(|step| !step.answer.is_accepted());
        if let Some(step) = &last
            && self.end.take().is_none()
        {
            self.bytes_read -= step.input.width() as u64;
        }
        last.is_some()
    }
}
