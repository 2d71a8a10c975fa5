//! An engine that stays open: each command is answered at once.

use crate::answer::{ANSWER_BYTES, Answer};
use crate::command::Command;
use crate::input::{Input, parts};
use crate::refusal::Refusal;
use crate::thresholds::thresholds_to_bytes;
use olgaemuri_sys::{ROW, STATE_FLOAT_ROWS, STATE_WORD_ROWS};
use std::fmt;

/// The journal's length at first, where it may be so long.
const FIRST_LENGTH: usize = 4096;

/// An open engine: recorded thresholds, the state of the clocks, and the commands in force.
///
/// It answers each command at once and tells what it holds: clocks, causes with their thresholds, the queue. A [`Session`] keeps the
/// whole list instead, refused and undone commands among it, and tells more of the past.
///
/// ```
/// use olgaemuri::{Command, Engine, Hazard, Policy, Tie};
///
/// // the first cause that is set will draw the threshold 2.0, the next one 1.0
/// let mut engine = Engine::new([2.0, 1.0]);
/// let (clock, cause) = (0, 1);
/// engine.execute(&Command::Create {
///     clock,
///     process: 7,
///     policy: Policy::RetainResidual,
///     tie: Tie::LowestCause,
///     scale: 10.0,
///     entity: None,
/// });
/// engine.execute(&Command::Set { clock, cause, priority: 0, hazard: Hazard::Constant(0.5), now: 0.0 });
/// let answer = engine.execute(&Command::Reschedule { clock, now: 0.0, censor: None, priority: 0 });
///
/// // 2.0 is used up at 0.5 an hour, so the breakdown comes after 4 hours, at ten ticks an hour
/// assert_eq!((answer.delta, answer.ticks), (4.0, 40));
///
/// // an edit: stopped in hour 1. Nothing is scheduled any more, and 0.5 of the threshold is used up
/// assert!(engine.execute(&Command::Pause { clock, now: 1.0 }).withdrawn);
/// assert!(engine.queue().is_empty());
/// let press = engine.clock(0).expect("it was created");
/// let seal = press.causes().next().expect("it was set");
/// assert_eq!((seal.accumulated, seal.threshold), (0.5, 2.0));
///
/// // taken back: the breakdown is where it was
/// engine.undo();
/// assert_eq!(engine.queue()[0].ticks, 40);
/// assert_eq!((engine.applied().count(), engine.draw_position()), (3, 1));
/// ```
///
/// # The journal
///
/// The commands in force stand in a journal. Where a command does not fit, the engine is opened anew in a journal twice as long and
/// given the commands in force, up to the length that was chosen; beyond it the command is refused by 14. So an engine is at all
/// times one that was newly opened in a journal of some length and given these commands alone, which is what is proved of it.
///
/// # Cost
///
/// A command costs the same whatever was given before it; UNDO runs the commands in force again, once. An engine takes 37 KB and its
/// journal, and a call less than 64 KiB of stack; that is measured, not proved.
///
/// # Panics
///
/// No method panics.
///
/// [`Session`]: crate::Session
#[derive(Clone)]
pub struct Engine {
    pub(crate) words: Box<[[u64; ROW]]>,
    pub(crate) floats: Box<[[f64; ROW]]>,
    /// The thresholds' bytes.
    stream: Vec<u8>,
    journal: Vec<u8>,
    /// The length that the journal may grow to.
    longest: usize,
}

impl Engine {
    /// A newly opened engine over these thresholds.
    pub fn new(thresholds: impl AsRef<[f64]>) -> Self {
        Self::with_applied(thresholds.as_ref(), usize::MAX, std::iter::empty())
    }

    /// A newly opened engine that is given these commands, one after another, with room for some more.
    pub(crate) fn with_applied<'a>(
        thresholds: &[f64],
        longest: usize,
        applied: impl Iterator<Item = &'a [u8]> + Clone,
    ) -> Self {
        let mut engine = Self {
            words: vec![[0; ROW]; STATE_WORD_ROWS].into_boxed_slice(),
            floats: vec![[0.0; ROW]; STATE_FLOAT_ROWS].into_boxed_slice(),
            stream: thresholds_to_bytes(thresholds),
            journal: Vec::new(),
            longest,
        };
        let length: usize = applied.clone().map(<[u8]>::len).sum();
        engine.open(length + length / 8, applied);
        engine
    }

    /// Chooses how many bytes of commands in force there is room for; a command beyond is refused by 14. Without a choice there is
    /// room for all. The commands in force are given again, up to the first that has no room.
    #[must_use]
    pub fn with_journal_length(mut self, length: usize) -> Self {
        self.longest = length;
        let applied = self.applied_bytes().to_vec();
        self.open(2 * applied.len(), parts(&applied));
        self
    }

    /// Adds thresholds behind those that are there. The engine is opened anew over all of them and given the commands in force, so it
    /// takes the longer the more there are: add many at a time.
    pub fn push_thresholds(&mut self, thresholds: &[f64]) {
        self.stream.extend(thresholds_to_bytes(thresholds));
        let applied = self.applied_bytes().to_vec();
        self.open(self.journal.len(), parts(&applied));
    }

    /// Gives a command, and returns its answer.
    pub fn execute(&mut self, command: &Command) -> Answer {
        self.execute_raw(&command.to_bytes())
    }

    /// Gives any bytes as one input, and returns its answer. Bytes past the command's width are ignored; bytes that are no whole
    /// command are refused by 2 or 3.
    pub fn execute_raw(&mut self, bytes: &[u8]) -> Answer {
        let answer = self.answer(bytes);
        let is_full = answer.refusal == Some(Refusal::JournalFull);
        if !is_full || self.journal.len() >= self.longest {
            return answer;
        }
        let applied = self.applied_bytes().to_vec();
        self.open(self.journal.len().saturating_mul(2), parts(&applied));
        self.answer(bytes)
    }

    /// Takes the last command in force back. Refused by 12 where there is none.
    pub fn undo(&mut self) -> Answer {
        self.execute(&Command::Undo)
    }

    /// Takes the last commands in force back, so many or all that there are, and returns how many. UNDO given as often leaves the
    /// same; this costs no more than one.
    pub fn undo_last(&mut self, count: usize) -> usize {
        let applied = self.applied_bytes();
        let commands = parts(applied).count();
        let count = count.min(commands);
        let left = parts(applied).take(commands - count).map(<[u8]>::len).sum();
        match count {
            0 => {}
            1 => {
                self.undo();
            }
            _ => {
                let applied = applied[..left].to_vec();
                self.open(self.journal.len(), parts(&applied));
            }
        }
        count
    }

    /// Gives inputs one after another, and returns their answers. UNDOs in a row cost no more than one.
    pub(crate) fn answers(&mut self, inputs: &[Input]) -> Vec<Answer> {
        let is_undo = |input: &Input| input.command() == Some(&Command::Undo);
        let mut answers = Vec::with_capacity(inputs.len());
        for part in inputs.chunk_by(|left, right| is_undo(left) && is_undo(right)) {
            match part {
                [input] => answers.push(self.execute_raw(&input.to_bytes())),
                undos => {
                    let accepted = self.undo_last(undos.len());
                    let refused = Answer::refused(Refusal::NothingApplied);
                    answers.resize(answers.len() + accepted, Answer::default());
                    answers.resize(answers.len() + undos.len() - accepted, refused);
                }
            }
        }
        answers
    }

    /// The commands in force, in their order: those accepted and not taken back.
    pub fn applied(&self) -> impl Iterator<Item = Command> + use<> {
        let inputs = Input::split(self.applied_bytes()).into_iter();
        inputs.filter_map(|input| match input {
            Input::Command(command) => Some(command),
            Input::Raw(_) => None,
        })
    }

    /// The bytes of the commands in force, one after another.
    #[must_use]
    pub fn applied_bytes(&self) -> &[u8] {
        let (_, length) = olgaemuri_sys::applied(&self.words, self.journal.len());
        &self.journal[..length as usize]
    }

    /// How many thresholds the commands in force have drawn; the next draw takes the one at this place.
    #[must_use]
    pub fn draw_position(&self) -> usize {
        olgaemuri_sys::counts(&self.words).draw_position as usize
    }

    /// How many events the commands in force have scheduled.
    #[must_use]
    pub fn requests_made(&self) -> u64 {
        olgaemuri_sys::counts(&self.words).requests_made
    }

    /// Opens the engine anew, in a journal of this length where it may have it, and gives it these commands, up to the first that has
    /// no room there.
    fn open<'a>(&mut self, length: usize, applied: impl Iterator<Item = &'a [u8]>) {
        let length = length.max(FIRST_LENGTH).min(self.longest);
        self.journal.clear();
        self.journal.resize(length, 0);
        olgaemuri_sys::open(&mut self.words, &mut self.floats, &mut self.journal);
        for command in applied {
            if !self.answer(command).is_accepted() {
                break;
            }
        }
    }

    /// The answer to one input in the journal as it is.
    fn answer(&mut self, input: &[u8]) -> Answer {
        #[cfg(test)]
        counted::COMMANDS.with(|commands| commands.set(commands.get() + 1));
        let Self {
            words,
            floats,
            stream,
            journal,
            ..
        } = self;
        let mut answer = [0; ANSWER_BYTES];
        olgaemuri_sys::execute(words, floats, stream, journal, input, &mut answer);
        Answer::from_bytes(&answer).expect("the engine's layout")
    }
}

impl fmt::Debug for Engine {
    fn fmt(&self, f: &mut fmt::Formatter) -> fmt::Result {
        f.debug_struct("Engine")
            .field("applied", &self.applied().collect::<Vec<Command>>())
            .field("queue", &self.queue())
            .field("draw_position", &self.draw_position())
            .finish_non_exhaustive()
    }
}

/// How many inputs engines were given in this thread.
#[cfg(test)]
pub(crate) mod counted {
    use std::cell::Cell;

    thread_local! {
        pub static COMMANDS: Cell<usize> = const { Cell::new(0) };
    }

    /// How many inputs the work gives to engines that stay open.
    pub fn commands<T>(work: impl FnOnce() -> T) -> usize {
        let before = COMMANDS.get();
        work();
        COMMANDS.get() - before
    }
}
