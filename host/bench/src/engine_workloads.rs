//! What is timed of the engine: sessions as a simulator of machines sends them.

use cases::random::Random;
use cases::sessions::command_count;
use reference::answer::ANSWER_BYTES;
use reference::command::{Command, Create, Reschedule, Set};
use reference::hazard::{CONSTANT, GOMPERTZ, Hazard};

const SEED: u64 = 5;
/// Machines, each with a clock of its own.
const MACHINES: u8 = 8;
/// Causes of breakdown of each machine.
const CAUSES: u32 = 4;

/// Commands and stream as given, and the lengths of the other buffers: the journal holds all commands, the answers have room.
pub struct EngineWorkload {
    pub commands: Vec<u8>,
    pub stream: Vec<u8>,
    pub journal: usize,
    pub answers: usize,
}

impl EngineWorkload {
    fn new(commands: &[Command]) -> Self {
        let bytes: Vec<u8> = commands.iter().flat_map(Command::to_bytes).collect();
        Self {
            journal: bytes.len(),
            answers: commands.len() * ANSWER_BYTES,
            commands: bytes,
            stream: stream(commands),
        }
    }

    /// Opening alone.
    pub fn opening(journal: usize) -> Self {
        Self {
            journal,
            ..Self::new(&[])
        }
    }

    pub fn command_count(&self) -> usize {
        command_count(&self.commands)
    }
}

/// A valid threshold for every draw that could come.
fn stream(commands: &[Command]) -> Vec<u8> {
    let mut random = Random::new(SEED);
    let sets = commands.iter().filter(|c| matches!(c, Command::Set(_)));
    sets.flat_map(|_| (0.25 * (1 + random.below(16)) as f64).to_le_bytes())
        .collect()
}

/// All machines set up, then `count` commands in all, of which about `undo` in a thousand are UNDO.
pub fn mixed(count: usize, undo: u64) -> EngineWorkload {
    EngineWorkload::new(&mixed_commands(count, undo))
}

/// `count` commands without UNDO, then `pairs` times UNDO and the last command again.
pub fn undone(count: usize, pairs: usize) -> EngineWorkload {
    let mut commands = mixed_commands(count, 0);
    let last = commands[count - 1];
    commands.extend([Command::Undo, last].repeat(pairs));
    EngineWorkload::new(&commands)
}

/// `count` commands without UNDO, then `undos` times UNDO and the command that was the last, which needs the state.
pub fn reverted(count: usize, undos: usize) -> EngineWorkload {
    let mut commands = mixed_commands(count, 0);
    if undos > 0 {
        let last = commands[count - 1];
        commands.extend([Command::Undo].repeat(undos));
        commands.push(last);
    }
    EngineWorkload::new(&commands)
}

/// `count` commands without UNDO, then so many times a refused command, UNDO and the command that was the last, so that each UNDO needs
/// a replay.
pub fn replayed(count: usize, undos: usize) -> EngineWorkload {
    let mut commands = mixed_commands(count, 0);
    let last = commands[count - 1];
    let refused = Command::Remove {
        clock: MACHINES,
        cause: 0,
    };
    commands.extend([refused, Command::Undo, last].repeat(undos));
    EngineWorkload::new(&commands)
}

fn mixed_commands(count: usize, undo: u64) -> Vec<Command> {
    let mut random = Random::new(SEED);
    let mut commands = set_up(&mut random);
    let mut now = 0.0;
    while commands.len() < count {
        now += 0.125 * (1 + random.below(8)) as f64;
        let command = if random.below(1000) < undo {
            Command::Undo
        } else {
            next(&mut random, now)
        };
        commands.push(command);
    }
    commands
}

fn set_up(random: &mut Random) -> Vec<Command> {
    let mut commands = Vec::new();
    for clock in 0..MACHINES {
        commands.push(Command::Create(create(clock)));
        commands.extend((0..CAUSES).map(|cause| set(random, clock, cause, 0.0)));
        commands.push(Command::Reschedule(plan(random, clock, 0.0)));
    }
    commands
}

fn create(clock: u8) -> Create {
    Create {
        clock,
        process: u64::from(clock),
        policy: clock % 2,
        tie: clock % 3,
        scale: 10.0,
        ..Create::default()
    }
}

/// Two constant causes, one Gompertz, one piecewise.
fn set(random: &mut Random, clock: u8, cause: u32, now: f64) -> Command {
    let rate = 0.125 * (1 + random.below(8)) as f64;
    let hazard = match cause {
        0 | 1 => Hazard::single_rate(CONSTANT, rate),
        2 => Hazard::single_rate(GOMPERTZ, rate),
        _ => Hazard::piecewise(&[(1.0, rate), (2.5, 0.0), (4.0, 0.25), (9.0, rate)], 0.5),
    };
    Command::Set(Set {
        clock,
        cause,
        priority: cause,
        hazard,
        now,
    })
}

/// One in four has a censor time, the end of the shift.
fn plan(random: &mut Random, clock: u8, now: f64) -> Reschedule {
    let has_censor = random.below(4) == 0;
    Reschedule {
        clock,
        now,
        has_censor: u8::from(has_censor),
        censor: if has_censor { now + 8.0 } else { 0.0 },
        priority: 0,
    }
}

/// Of a hundred: 35 RESCHEDULE, 20 SET, 15 PAUSE, 15 RESUME, 12 DELIVER, 3 REMOVE.
fn next(random: &mut Random, now: f64) -> Command {
    let clock = random.below(u64::from(MACHINES)) as u8;
    let cause = random.below(u64::from(CAUSES)) as u32;
    match random.below(100) {
        0..35 => Command::Reschedule(plan(random, clock, now)),
        35..55 => set(random, clock, cause, now),
        55..70 => Command::Pause { clock, now },
        70..85 => Command::Resume(plan(random, clock, now)),
        85..97 => Command::Deliver,
        _ => Command::Remove { clock, cause },
    }
}
