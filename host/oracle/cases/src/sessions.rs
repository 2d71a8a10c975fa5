//! Whole sessions through the batch run, with every byte that it returns or leaves.

use reference::answer::Answer;
use reference::batch;
use reference::command::{Command, width};
use reference::execute::execute;
use reference::state::{State, open};

/// What the buffers hold before the call.
pub const ANSWERS_BEFORE: u8 = 0xA5;
pub const JOURNAL_BEFORE: u8 = 0x5A;
pub const RESULT_BEFORE: u8 = 0xC3;

/// No buffer of a session is longer.
pub const BUFFER_LIMIT: usize = 4096;
/// No session has more commands, so that all its answers fit a buffer.
pub const COMMAND_LIMIT: usize = 102;

/// The buffers that are given: two by their bytes, three by their lengths.
#[derive(Clone, Debug)]
pub struct Session {
    pub commands: Vec<u8>,
    pub stream: Vec<u8>,
    pub journal: usize,
    pub answers: usize,
    pub result: usize,
}

/// What the batch run returns and leaves.
#[derive(Clone, Debug, PartialEq)]
pub struct Outcome {
    pub number: u8,
    pub answers: Vec<u8>,
    pub journal: Vec<u8>,
    pub result: Vec<u8>,
}

/// One input of a session with what it found and its answer.
pub struct Step {
    pub before: State,
    pub command: Option<Command>,
    pub answer: Answer,
}

/// A batch run: commands, stream, journal, answers, result; the number that ended it.
pub type Run = fn(&[u8], &[u8], &mut [u8], &mut [u8], &mut [u8]) -> u8;

impl Session {
    pub fn expected(&self) -> Outcome {
        self.through(batch::run)
    }

    pub fn through(&self, run: Run) -> Outcome {
        let mut answers = vec![ANSWERS_BEFORE; self.answers];
        let mut journal = vec![JOURNAL_BEFORE; self.journal];
        let mut result = vec![RESULT_BEFORE; self.result];
        let (commands, stream) = (&self.commands, &self.stream);
        let number = run(commands, stream, &mut journal, &mut answers, &mut result);
        Outcome {
            number,
            answers,
            journal,
            result,
        }
    }

    pub fn encode(&self, out: &mut Vec<u8>) {
        let outcome = self.expected();
        let lengths = [self.commands.len(), self.stream.len(), self.journal];
        for length in lengths.into_iter().chain([self.answers, self.result]) {
            out.extend((length as u32).to_le_bytes());
        }
        out.extend(u32::from(outcome.number).to_le_bytes());
        out.extend(&self.commands);
        out.extend(&self.stream);
        out.extend(&outcome.answers);
        out.extend(&outcome.journal);
        out.extend(&outcome.result);
    }

    /// The inputs one by one, whatever the lengths of answers and result.
    pub fn steps(&self) -> Vec<Step> {
        let mut journal = vec![0; self.journal];
        let mut state = open(&mut journal);
        let mut steps = Vec::new();
        let mut rest = &self.commands[..];
        while !rest.is_empty() {
            let before = state.clone();
            let answer = execute(&mut state, &mut journal, &self.stream, rest);
            let command = Command::read(rest).ok();
            let read = command.map_or(rest.len(), |command| command.width());
            steps.push(Step {
                before,
                command,
                answer,
            });
            rest = &rest[read..];
        }
        steps
    }
}

/// How many commands the bytes hold, the one that is cut or unknown among them.
pub fn command_count(mut bytes: &[u8]) -> usize {
    let mut count = 0;
    while let Some(code) = bytes.first() {
        count += 1;
        let read = width(*code).unwrap_or(bytes.len());
        bytes = bytes.get(read..).unwrap_or(&[]);
    }
    count
}
