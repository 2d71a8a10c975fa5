//! Random sessions: commands aimed at the state that the ones before them leave.

use crate::clock_histories::command_time;
use crate::command_damage::damage;
use crate::commands::{self, View};
use crate::floats::{Style, style};
use crate::random::Random;
use crate::session_buffers::{buffers, journal_length, spoil, stream};
use crate::sessions::{BUFFER_LIMIT, Session, command_count};
use kairo_ecs_rng::DeterministicStream;
use reference::command::Command;
use reference::execute::execute;
use reference::fields::time_in_range;
use reference::state::{State, open};

/// What a session is like; shares are in percent.
pub(crate) struct Plan {
    pub style: Style,
    /// Clocks below this number are named.
    pub clocks: u64,
    commands: usize,
    undo: u64,
    deliver: u64,
    damage: u64,
    /// The scale of all clocks, if they share one: a small one gives them the same ticks.
    scale: Option<f64>,
    /// How likely a clock without a scheduled event is given one.
    queue: u64,
    /// Channels that a clock is given before anything else is likely.
    channels: usize,
}

pub(crate) fn plan(random: &mut Random) -> Plan {
    Plan {
        style: if random.chance(50) {
            Style::Simple
        } else {
            style(random)
        },
        clocks: random.pick(&[1, 1, 2, 3, 5, 16, 16]),
        commands: random.pick(&[4, 10, 25, 50, 80, 100]),
        undo: random.pick(&[0, 5, 10, 20, 40]),
        deliver: random.pick(&[3, 6, 15]),
        damage: random.pick(&[0, 0, 3, 10]),
        scale: random.pick(&[None, None, Some(1.0), Some(0.125), Some(0.01)]),
        queue: random.pick(&[0, 30, 80]),
        channels: random.pick(&[1, 1, 1, 2, 3, 9]),
    }
}

/// The engine that the commands so far have been given to.
pub(crate) struct Builder {
    pub state: State,
    pub journal: Vec<u8>,
    pub stream: Vec<u8>,
    pub commands: Vec<u8>,
    /// No more bytes of commands than this.
    limit: usize,
    now: f64,
}

impl Builder {
    pub fn new(journal: usize, stream: Vec<u8>, limit: usize) -> Self {
        let mut journal = vec![0; journal];
        Self {
            state: open(&mut journal),
            journal,
            stream,
            commands: Vec::new(),
            limit,
            now: 0.0,
        }
    }

    /// Adds a command; whether there was room for it.
    pub fn give(&mut self, command: &Command) -> bool {
        let has_room = self.commands.len() + command.width() <= self.limit;
        if has_room {
            let bytes = command.to_bytes();
            execute(&mut self.state, &mut self.journal, &self.stream, &bytes);
            self.commands.extend(bytes);
            let time = command_time(command).filter(|now| time_in_range(*now));
            self.now = time.unwrap_or(self.now);
        }
        has_room
    }

    /// A clock that is present, as the next command finds it.
    pub fn view(&self, name: u8, style: Style) -> Option<View<'_>> {
        let clock = self.state.clocks[usize::from(name)].as_ref()?;
        Some(View {
            name,
            clock,
            style,
            now: self.now,
            due: self.due(),
        })
    }

    fn due(&self) -> Option<f64> {
        let stream = DeterministicStream::new(&self.stream, 0);
        stream.threshold(self.state.position)
    }
}

pub fn session(random: &mut Random) -> Session {
    let plan = plan(random);
    let stream = stream(random, plan.style);
    let journal = journal_length(random);
    let most = plan.commands.min(8 + journal / 12);
    let mut builder = Builder::new(journal, stream, BUFFER_LIMIT);
    if random.chance(50) {
        give_all_clocks(random, &plan, &mut builder);
    }
    let mut has_room = true;
    while has_room && command_count(&builder.commands) < most {
        let mut command = next(random, &plan, &builder);
        if random.chance(plan.damage) {
            damage(random, &mut command);
        }
        has_room = builder.give(&command);
    }
    let Builder {
        mut commands,
        stream,
        journal,
        ..
    } = builder;
    if random.chance(20) {
        spoil(random, &mut commands);
    }
    buffers(random, commands, stream, journal.len())
}

/// CREATE for each clock of the plan, so that many are queued at once.
pub(crate) fn give_all_clocks(random: &mut Random, plan: &Plan, builder: &mut Builder) {
    for name in 0..plan.clocks {
        builder.give(&create(random, plan, name as u8));
    }
}

pub(crate) fn next(random: &mut Random, plan: &Plan, builder: &Builder) -> Command {
    let (applied, queue) = (builder.state.applied_length, &builder.state.scheduler.queue);
    if random.chance(plan.undo) && (applied > 0 || random.chance(10)) {
        return Command::Undo;
    }
    if random.chance(plan.deliver) && (!queue.is_empty() || random.chance(5)) {
        return Command::Deliver;
    }
    let name = name(random, plan, builder);
    match builder.view(name, plan.style) {
        None if random.chance(95) => create(random, plan, name),
        Some(_) if random.chance(2) => create(random, plan, name),
        None => Command::Pause {
            clock: name,
            now: builder.now,
        },
        Some(view) => aimed(random, plan, &view),
    }
}

/// A clock that is present, or any of the plan's.
fn name(random: &mut Random, plan: &Plan, builder: &Builder) -> u8 {
    let clocks = &builder.state.clocks;
    let present: Vec<u8> = (0..)
        .zip(clocks)
        .filter(|(_, c)| c.is_some())
        .map(|(n, _)| n)
        .collect();
    if present.is_empty() || random.chance(35) {
        random.below(plan.clocks) as u8
    } else {
        random.pick(&present)
    }
}

fn aimed(random: &mut Random, plan: &Plan, view: &View) -> Command {
    if view.clock.scheduled_event_id.is_none() && random.chance(plan.queue) {
        return Command::Reschedule(commands::reschedule(random, view));
    }
    let room = view.due.is_some() || random.chance(10);
    if view.clock.channels.len() < plan.channels && room && random.chance(80) {
        Command::Set(commands::set_new(random, view))
    } else {
        commands::any(random, view)
    }
}

fn create(random: &mut Random, plan: &Plan, name: u8) -> Command {
    let mut create = commands::create(random, plan.style, name);
    create.scale = plan.scale.unwrap_or(create.scale);
    Command::Create(create)
}
