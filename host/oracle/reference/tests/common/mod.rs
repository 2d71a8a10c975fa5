//! An engine with its buffers, and the commands of document 01's rows.
#![allow(dead_code)]

use kairo_ecs_rng::CauseId;
use reference::answer::Answer;
use reference::clock::Clock;
use reference::command::{Command, Create, Reschedule, Set};
use reference::dump::dump_state;
use reference::execute::execute;
use reference::hazard::{CONSTANT, Hazard};
use reference::state::{State, open};

pub struct Engine {
    pub state: State,
    pub journal: Vec<u8>,
    pub stream: Vec<u8>,
}

impl Engine {
    pub fn open(stream: &[f64], journal: usize) -> Self {
        let mut journal = vec![0xFF; journal];
        Self {
            state: open(&mut journal),
            journal,
            stream: stream.iter().flat_map(|w| w.to_le_bytes()).collect(),
        }
    }

    /// A refusal leaves zero in the other fields of the answer, and state and journal as they were.
    pub fn give_bytes(&mut self, input: &[u8]) -> Answer {
        let before = (dump_state(&self.state), self.journal.clone());
        let answer = execute(&mut self.state, &mut self.journal, &self.stream, input);
        if answer.number != 0 {
            let zero_elsewhere = Answer {
                number: answer.number,
                ..Answer::default()
            };
            assert_eq!(answer, zero_elsewhere);
            assert_eq!((dump_state(&self.state), self.journal.clone()), before);
        }
        answer
    }

    pub fn give(&mut self, command: Command) -> Answer {
        self.give_bytes(&command.to_bytes())
    }

    pub fn number(&mut self, command: Command) -> u8 {
        self.give(command).number
    }

    /// Gives commands that have to be accepted.
    pub fn accepts(&mut self, commands: &[Command]) {
        for command in commands {
            assert_eq!(self.number(*command), 0, "{command:?}");
        }
    }

    pub fn clock(&mut self, name: usize) -> &mut Clock {
        self.state.clocks[name]
            .as_mut()
            .expect("a clock that is present")
    }

    pub fn accumulated(&mut self, cause: u32) -> f64 {
        self.clock(0).channels[&CauseId(cause)].accumulated_hazard
    }

    pub fn threshold(&mut self, cause: u32) -> f64 {
        self.clock(0).channels[&CauseId(cause)].target_threshold
    }
}

/// Clock 0: RetainResidual, lowest cause.
pub fn create(scale: f64) -> Command {
    create_on(0, scale)
}

pub fn create_on(clock: u8, scale: f64) -> Command {
    Command::Create(Create {
        clock,
        policy: 1,
        scale,
        ..Create::default()
    })
}

pub fn constant(cause: u32, rate: f64, now: f64) -> Command {
    constant_on(0, cause, rate, now)
}

pub fn constant_on(clock: u8, cause: u32, rate: f64, now: f64) -> Command {
    Command::Set(Set {
        clock,
        cause,
        priority: 0,
        hazard: Hazard::single_rate(CONSTANT, rate),
        now,
    })
}

pub fn reschedule(now: f64) -> Command {
    reschedule_on(0, now, 0)
}

pub fn reschedule_on(clock: u8, now: f64, priority: i32) -> Command {
    Command::Reschedule(Reschedule {
        clock,
        now,
        priority,
        ..Reschedule::default()
    })
}

pub fn censored(now: f64, censor: f64) -> Command {
    Command::Reschedule(Reschedule {
        now,
        has_censor: 1,
        censor,
        ..Reschedule::default()
    })
}

pub fn resume(now: f64) -> Command {
    Command::Resume(Reschedule {
        now,
        ..Reschedule::default()
    })
}

pub fn pause(now: f64) -> Command {
    Command::Pause { clock: 0, now }
}

pub fn remove(cause: u32) -> Command {
    Command::Remove { clock: 0, cause }
}
