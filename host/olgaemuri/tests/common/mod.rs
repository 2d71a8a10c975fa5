//! Random commands and sessions from a seed, and one press to begin with. Not every test file uses all of it.
#![allow(dead_code)]

use olgaemuri::{Command, Entity, Hazard, Pair, Policy, Session, Tie};

/// xorshift64*. The seed is not 0.
pub struct Random(pub u64);

impl Random {
    pub fn word(&mut self) -> u64 {
        self.0 ^= self.0 >> 12;
        self.0 ^= self.0 << 25;
        self.0 ^= self.0 >> 27;
        self.0.wrapping_mul(0x2545_F491_4F6C_DD1D)
    }

    /// A number below the bound, which is above 0. From the high bits, which are the better ones.
    pub fn below(&mut self, bound: u64) -> u64 {
        (self.word() >> 32) % bound
    }

    pub fn byte(&mut self) -> u8 {
        self.below(256) as u8
    }

    pub fn flip(&mut self) -> bool {
        self.below(2) == 1
    }

    fn pick<T: Copy>(&mut self, items: &[T]) -> T {
        items[self.below(items.len() as u64) as usize]
    }

    /// Any 64 bits as a float, or one of the values at which something changes.
    pub fn any_float(&mut self) -> f64 {
        let chosen = [
            0.0,
            -0.0,
            f64::NAN,
            f64::INFINITY,
            1e-320,
            0.1,
            2f64.powi(40),
            -1.0,
        ];
        if self.flip() {
            return self.pick(&chosen);
        }
        f64::from_bits(self.word())
    }
}

/// A command with any values in its fields; at most eight pairs.
pub fn any_command(random: &mut Random) -> Command {
    let (clock, cause, now) = (random.byte(), random.word() as u32, random.any_float());
    let priority = random.word() as u32;
    let censor = random.flip().then(|| random.any_float());
    match random.below(8) {
        0 => any_create(random),
        1 | 2 => Command::Set {
            clock,
            cause,
            priority,
            hazard: any_hazard(random),
            now,
        },
        3 => Command::Remove { clock, cause },
        4 => Command::Reschedule {
            clock,
            now,
            censor,
            priority: priority as i32,
        },
        5 => Command::Pause { clock, now },
        6 => Command::Resume {
            clock,
            now,
            censor,
            priority: priority as i32,
        },
        _ if random.flip() => Command::Deliver,
        _ => Command::Undo,
    }
}

fn any_create(random: &mut Random) -> Command {
    let entity = Entity {
        index: random.word(),
        generation: random.word() as u32,
    };
    Command::Create {
        clock: random.byte(),
        process: random.word(),
        policy: random.pick(&Policy::ALL),
        tie: random.pick(&Tie::ALL),
        scale: random.any_float(),
        entity: random.flip().then_some(entity),
    }
}

fn any_hazard(random: &mut Random) -> Hazard {
    match random.below(6) {
        0 => Hazard::Zero,
        1 => Hazard::Constant(random.any_float()),
        2 => Hazard::Gompertz(random.any_float()),
        3 => Hazard::Weibull(random.any_float()),
        _ => {
            let pair = |random: &mut Random| Pair {
                end: random.any_float(),
                rate: random.any_float(),
            };
            let pairs = (0..random.below(9)).map(|_| pair(random)).collect();
            Hazard::PiecewiseConstant {
                pairs,
                trailing: random.any_float(),
            }
        }
    }
}

/// A command that is mostly accepted, on one of three clocks; times are halves, so that ties come. No UNDO.
pub fn likely_command(random: &mut Random) -> Command {
    let clock = random.below(3) as u8;
    let (cause, now) = (random.below(4) as u32, random.below(20) as f64 / 2.0);
    let priority = random.below(3);
    let censor = (random.below(4) == 0).then(|| now + random.below(8) as f64);
    let (policy, tie) = (random.pick(&Policy::ALL), random.pick(&Tie::ALL));
    match random.below(16) {
        0 => Command::Create {
            clock,
            process: priority,
            policy,
            tie,
            scale: 10.0,
            entity: None,
        },
        1..=5 => Command::Set {
            clock,
            cause,
            priority: priority as u32,
            hazard: likely_hazard(random),
            now,
        },
        6 => Command::Remove { clock, cause },
        7..=10 => Command::Reschedule {
            clock,
            now,
            censor,
            priority: priority as i32,
        },
        11 => Command::Pause { clock, now },
        12..=14 => Command::Resume {
            clock,
            now,
            censor,
            priority: priority as i32,
        },
        _ => Command::Deliver,
    }
}

fn likely_hazard(random: &mut Random) -> Hazard {
    let rate = random.below(5) as f64 / 4.0;
    match random.below(5) {
        0 => Hazard::Zero,
        1 => Hazard::Constant(rate),
        2 => Hazard::Gompertz(rate),
        3 => Hazard::Weibull(4.0 * rate),
        _ => {
            let pairs = (1..=random.below(9)).map(|end| Pair {
                end: end as f64,
                rate,
            });
            Hazard::PiecewiseConstant {
                pairs: pairs.collect(),
                trailing: 0.5,
            }
        }
    }
}

/// A session without commands and with a few thresholds.
pub fn thresholds_only(random: &mut Random) -> Session {
    let count = random.below(20);
    Session::new(
        (0..count)
            .map(|_| random.below(12) as f64 / 4.0)
            .collect::<Vec<f64>>(),
    )
}

/// A session of so many mostly accepted commands with an UNDO now and then. In every other one all three clocks are made first.
pub fn likely_session(random: &mut Random, commands: u64) -> Session {
    let mut session = thresholds_only(random);
    if random.flip() {
        session.extend((0..3).map(|clock| create_clock(clock, random.pick(&Policy::ALL))));
    }
    for _ in 0..commands {
        let undo = random.below(6) == 0;
        session.push(if undo {
            Command::Undo
        } else {
            likely_command(random)
        });
    }
    session
}

/// CREATE of a clock, ten ticks to one unit of time.
pub fn create_clock(clock: u8, policy: Policy) -> Command {
    Command::Create {
        clock,
        process: 7,
        policy,
        tie: Tie::LowestCause,
        scale: 10.0,
        entity: None,
    }
}

/// CREATE of clock 0, ten ticks to one unit of time.
pub fn create(policy: Policy) -> Command {
    create_clock(0, policy)
}

/// SET on a clock of a constant rate.
pub fn set_on(clock: u8, cause: u32, rate: f64, now: f64) -> Command {
    Command::Set {
        clock,
        cause,
        priority: 0,
        hazard: Hazard::Constant(rate),
        now,
    }
}

/// SET on clock 0 of a cause that wears with this scale.
pub fn set_wear(cause: u32, scale: f64, now: f64) -> Command {
    Command::Set {
        clock: 0,
        cause,
        priority: 0,
        hazard: Hazard::Weibull(scale),
        now,
    }
}

/// SET on clock 0 of a constant rate.
pub fn set(cause: u32, rate: f64, now: f64) -> Command {
    set_on(0, cause, rate, now)
}

/// RESCHEDULE of a clock without a censor time.
pub fn reschedule_on(clock: u8, now: f64, priority: i32) -> Command {
    Command::Reschedule {
        clock,
        now,
        censor: None,
        priority,
    }
}

/// RESCHEDULE of clock 0 without a censor time, priority 0.
pub fn reschedule(now: f64) -> Command {
    reschedule_on(0, now, 0)
}

/// Document 01's row 9: one press whose breakdown is scheduled for tick 40.
pub fn row_9() -> Session {
    let mut session = Session::new([2.0, 1.0]);
    session.extend([
        create(Policy::RetainResidual),
        set(1, 0.5, 0.0),
        reschedule(0.0),
    ]);
    session
}
