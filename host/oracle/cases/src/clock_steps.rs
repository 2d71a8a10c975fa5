//! Histories of a single clock, step by step, with the answer and the clock after each: records of
//! 1,672 bytes over one stream of thresholds.

use crate::random::Random;
use kairo_ecs_core::Scheduler;
use kairo_ecs_rng::DeterministicStream;
use reference::answer::Answer;
use reference::clock::{self, Clock};
use reference::command::{Command, Create, SET_BYTES};
use reference::dump::dump_clock;
use reference::refusal::Refusal;

pub const RECORD_BYTES: usize = 1672;

/// One command, what it found and what it left.
#[derive(Clone, Debug)]
pub struct ClockStep {
    pub command: Command,
    pub requests_before: u64,
    pub position_before: u64,
    pub answer: Answer,
    pub position_after: u64,
    pub after: Clock,
}

impl ClockStep {
    pub fn encode(&self, out: &mut Vec<u8>) {
        let start = out.len();
        out.extend(self.command.to_bytes());
        out.resize(start + SET_BYTES, 0);
        out.extend(self.requests_before.to_le_bytes());
        out.extend(self.position_before.to_le_bytes());
        out.extend(self.answer.to_bytes());
        out.extend(self.position_after.to_le_bytes());
        dump_clock(&self.after, out);
        out.resize(start + RECORD_BYTES, 0);
    }
}

/// A clock from its CREATE on, with the queue that it alone uses.
pub struct History<'a> {
    pub clock: Clock,
    pub scheduler: Scheduler,
    pub stream: DeterministicStream<'a>,
    pub steps: Vec<ClockStep>,
}

impl<'a> History<'a> {
    pub fn new(create: Create, requests_made: u64, stream: DeterministicStream<'a>) -> Self {
        let position = stream.position();
        let clock = clock::create(&create);
        let created = ClockStep {
            command: Command::Create(create),
            requests_before: requests_made,
            position_before: position,
            answer: Answer::default(),
            position_after: position,
            after: clock.clone(),
        };
        Self {
            clock,
            scheduler: Scheduler::new(requests_made),
            stream,
            steps: vec![created],
        }
    }

    /// Gives the clock a command from SET to DELIVER.
    pub fn step(&mut self, command: Command) {
        let (requests_before, position_before) =
            (self.scheduler.requests_made, self.stream.position());
        let answer = self.answer(&command).unwrap_or_else(Answer::refused);
        self.steps.push(ClockStep {
            command,
            requests_before,
            position_before,
            answer,
            position_after: self.stream.position(),
            after: self.clock.clone(),
        });
    }

    /// By 10, then 15 or 16; nothing changes on refusal.
    fn answer(&mut self, command: &Command) -> Result<Answer, Refusal> {
        if let Command::Set(set) = command {
            clock::cause_refusal(&self.clock, set)?;
            clock::set_refusal(&self.clock, set, &self.stream)?;
        }
        if *command == Command::Deliver {
            let request = self.scheduler.deliver().expect("an event is scheduled");
            return Ok(clock::deliver(&mut self.clock, &request));
        }
        let (clock, scheduler) = (&mut self.clock, &mut self.scheduler);
        Ok(clock::apply(clock, scheduler, &mut self.stream, command))
    }
}

/// How many requests were made before the history.
pub fn requests_made(random: &mut Random) -> u64 {
    random.pick(&[0, 0, 0, 1, 41, 1 << 32])
}
