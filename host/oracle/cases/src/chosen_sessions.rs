//! Chosen sessions: rows 9 to 12 of document 01's table with their undos, its errors to shut out,
//! sixteen clocks, priorities at the ends of i32, hazard kind 4, pieces.

use crate::chosen_histories::{censored, constant, create, pause, remove, reschedule, resume};
use crate::chosen_pieces;
use crate::chosen_weibull::{SHORT_ROOT, wears};
use crate::floats::SMALLEST;
use crate::sessions::{Session, command_count};
use reference::answer::ANSWER_BYTES;
use reference::batch::RESULT_BYTES;
use reference::command::{Command, Create, Reschedule, Set};
use reference::command_fields::CLOCKS;
use reference::hazard::{CONSTANT, Hazard, SMALLEST_SCALE, WEIBULL};

/// A session with room for all answers.
pub fn session(stream: &[f64], journal: usize, inputs: &[Vec<u8>]) -> Session {
    let commands = inputs.concat();
    Session {
        stream: stream.iter().flat_map(|w| w.to_le_bytes()).collect(),
        journal,
        answers: command_count(&commands) * ANSWER_BYTES + 5,
        result: RESULT_BYTES,
        commands,
    }
}

pub fn of(stream: &[f64], commands: &[Command]) -> Session {
    let inputs: Vec<Vec<u8>> = commands.iter().map(Command::to_bytes).collect();
    session(stream, 700, &inputs)
}

/// Clock 0 of rows 9 to 12: RetainResidual, scale 10.
pub fn table_clock() -> Command {
    Command::Create(create(1, 0, 10.0))
}

pub fn sessions() -> Vec<Session> {
    let mut all = rows();
    all.extend(undos());
    all.extend(sixteen_clocks());
    all.push(urgent_first());
    all.extend(guide_rails());
    all.extend(chosen_pieces::sessions());
    all
}

fn rows() -> Vec<Session> {
    let (new, set, start) = (table_clock(), constant(1, 0.5, 0.0), reschedule(0.0));
    let (undo, deliver) = (Command::Undo, Command::Deliver);
    let (pause, resume) = (pause(1.0), resume(3.0));
    let again = [constant(1, 0.5, 4.0), reschedule(4.0), deliver];
    let lists = [
        vec![new, set, start],
        vec![new, set, start, pause, resume, undo, undo, deliver],
        [&[new, set, start][..], &again].concat(),
        vec![new, set, censored(0.0, 4.0), deliver],
        vec![new, set, censored(0.0, 4.0f64.next_down()), deliver],
    ];
    lists.map(|list| of(&[2.0, 1.0], &list)).into()
}

/// A draw, a queue number, a delivered and a withdrawn request are given back.
fn undos() -> Vec<Session> {
    let (new, set, start) = (table_clock(), constant(1, 0.5, 0.0), reschedule(0.0));
    let (undo, deliver) = (Command::Undo, Command::Deliver);
    let (other, pause, remove) = (constant(2, 0.5, 0.0), pause(1.0), remove(1));
    let again = [deliver, undo, deliver, undo, pause, undo, deliver];
    let lists = [
        vec![new, set, undo, set, start, undo, other, start],
        [&[new, set, start][..], &again].concat(),
        vec![new, set, start, remove, start, undo, undo, start, deliver],
        vec![new, set, start, undo, undo, undo, undo, new, set, start],
    ];
    let mut all: Vec<Session> = lists.map(|list| of(&[2.0, 1.0], &list)).into();
    all.push(numbers_given_back());
    all
}

/// Two clocks with the same ticks and priority: the one that asked first is delivered first.
fn numbers_given_back() -> Session {
    let on = |clock, cause| {
        [
            Command::Create(Create {
                clock,
                ..create(1, 0, 10.0)
            }),
            set_on(clock, cause, 0.5),
        ]
    };
    let ask = |clock| reschedule_on(clock, 0.0, 0);
    let mut commands = [on(3, 30), on(4, 40)].concat();
    commands.extend([ask(3), Command::Undo, ask(4), ask(3)]);
    commands.extend([
        Command::Deliver,
        Command::Undo,
        Command::Deliver,
        Command::Deliver,
    ]);
    of(&[2.0, 2.0], &commands)
}

fn set_on(clock: u8, cause: u32, rate: f64) -> Command {
    Command::Set(Set {
        clock,
        cause,
        priority: 0,
        hazard: Hazard::single_rate(CONSTANT, rate),
        now: 0.0,
    })
}

fn reschedule_on(clock: u8, now: f64, priority: i32) -> Command {
    Command::Reschedule(Reschedule {
        clock,
        now,
        priority,
        ..Reschedule::default()
    })
}

/// All clocks are full and queued: two ticks, two priorities, then by index. The cause names the
/// clock. One DELIVER more than there are requests; then the same with undos between.
fn sixteen_clocks() -> Vec<Session> {
    let mut commands = Vec::new();
    for clock in 0..CLOCKS as u8 {
        let clock_of = Create {
            clock,
            process: u64::from(clock),
            ..create(clock % 2, clock % 3, 1.0)
        };
        let rate = if clock % 5 == 0 { 0.25 } else { 0.5 };
        commands.extend([
            Command::Create(clock_of),
            set_on(clock, 100 + u32::from(clock), rate),
        ]);
    }
    for turn in 0..CLOCKS as u8 {
        let clock = turn * 7 % 16;
        let priority = if clock % 4 == 1 { -3 } else { 2 };
        commands.push(reschedule_on(clock, 0.0, priority));
    }
    let delivers = [&commands[..], &[Command::Deliver; 17]].concat();
    let pattern = [Command::Deliver, Command::Deliver, Command::Undo];
    let undos = [&commands[..], &pattern.repeat(18)].concat();
    let whole = |commands: &[Command]| Session {
        journal: 4096,
        ..of(&[2.0; 16], commands)
    };
    vec![whole(&delivers), whole(&undos)]
}

/// Five events at one tick, each delivered, taken back and delivered again: 2^31 - 1, 1, 0, -1, -2^31.
fn urgent_first() -> Session {
    let mut commands = Vec::new();
    for (clock, priority) in (0..).zip([1, i32::MAX, -1, i32::MIN, 0]) {
        commands.extend([
            Command::Create(Create {
                clock,
                ..create(1, 0, 1.0)
            }),
            set_on(clock, 100 + u32::from(clock), 0.5),
            reschedule_on(clock, 0.0, priority),
        ]);
    }
    let again = [Command::Deliver, Command::Undo, Command::Deliver];
    commands.extend(again.repeat(5));
    commands.push(Command::Deliver);
    Session {
        journal: 1200,
        ..of(&[2.0; 5], &commands)
    }
}

/// Kind 4 (document 02, change 4): paused, resumed, set again, with undos and a delivery; a subnormal threshold and one just below a square;
/// its refusals.
fn guide_rails() -> [Session; 3] {
    let (new, set, start) = (table_clock(), wears(1, 3.0, 0.0), reschedule(0.0));
    let (undo, deliver) = (Command::Undo, Command::Deliver);
    let edited = [pause(5.0), resume(0.0), undo, undo];
    let again = [wears(1, 49.0, 4.0), reschedule(4.0), pause(5.0)];
    let ended = [resume(6.0), undo, deliver];
    let commands = [&[new, set, start][..], &edited, &again, &ended].concat();
    let alone = [
        new,
        set,
        start,
        deliver,
        remove(1),
        wears(1, 1.0, 0.0),
        start,
    ];
    [
        of(&[4.0, 1.0], &commands),
        of(&[SMALLEST, SHORT_ROOT], &alone),
        refused_scales(),
    ]
}

/// Scales beside and at the smallest, -0.0, then the kind after the last, a count and bits in the first and in the last pair.
fn refused_scales() -> Session {
    let scales = [SMALLEST_SCALE.next_down(), SMALLEST_SCALE, -0.0, 3.0];
    let mut inputs = vec![table_clock().to_bytes()];
    inputs.extend(scales.map(|scale| wears(1, scale, 0.0).to_bytes()));
    for (at, byte) in [(10, WEIBULL + 1), (27, 1), (28, 1), (155, 0x80)] {
        let mut changed = wears(1, 3.0, 0.0).to_bytes();
        changed[at] = byte;
        inputs.push(changed);
    }
    inputs.extend([reschedule(0.0), Command::Undo, Command::Undo].map(|c| c.to_bytes()));
    session(&[2.0, 1.0], 700, &inputs)
}
