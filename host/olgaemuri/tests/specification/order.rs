//! What each command can be refused by, and that of two conditions the one that stands first in the table decides.

use crate::common::{Random, any_command, create, likely_session, reschedule, set};
use crate::document::{number, table};
use olgaemuri::{Command, NO_CAUSE, Policy, Session};

/// The document's refusals of each command.
fn refusals(command: &str) -> Vec<usize> {
    let rows = table("| command | refusals |");
    let row = rows
        .iter()
        .find(|row| row[0] == command)
        .expect("a row for each command");
    row[1].split(", ").map(number).collect()
}

/// A command that is accepted behind others, until one of these is made wrong.
struct Case {
    before: Vec<Command>,
    command: Vec<u8>,
    /// The threshold that is next, if there is one.
    next: Option<f64>,
    full: bool,
}

impl Case {
    fn new(command: Command) -> Self {
        let mut before = vec![
            create(Policy::RetainResidual),
            set(1, 0.5, 0.0),
            reschedule(0.0),
        ];
        if matches!(command, Command::Create { .. }) {
            before.clear();
        }
        Self {
            before,
            command: command.to_bytes(),
            next: Some(1.0),
            full: false,
        }
    }

    fn put(&mut self, at: usize, bytes: &[u8]) {
        self.command[at..at + bytes.len()].copy_from_slice(bytes);
    }

    /// Makes the condition of a refusal true.
    fn refuse_by(&mut self, number: usize) {
        let code = self.command[0];
        match number {
            // policy, kind, has-censor
            4 => self.put(10, &[9]),
            5 if code == 1 => self.put(12, &f64::NAN.to_le_bytes()),
            5 if code == 2 => self.put(19, &(-0.0f64).to_le_bytes()),
            5 => self.put(2, &f64::INFINITY.to_le_bytes()),
            6 => self.put(27, &[1]),
            7 if code <= 3 && code > 1 => self.put(2, &NO_CAUSE.to_le_bytes()),
            7 => self.put(1, &[16]),
            8 => self.before.push(create(Policy::Restart)),
            9 | 11 | 12 => self.before.clear(),
            10 => self
                .before
                .extend((10..17).map(|cause| set(cause, 0.5, 0.0))),
            14 => self.full = true,
            15 => self.next = None,
            16 => self.next = Some(1025.0),
            _ => panic!("{number} is no refusal of a command"),
        }
    }

    /// The number in the command's answer.
    fn number(&self) -> usize {
        let draws = self
            .before
            .iter()
            .filter(|c| matches!(c, Command::Set { .. }))
            .count();
        let thresholds = [1.0].repeat(draws).into_iter().chain(self.next);
        let before: usize = self.before.iter().map(Command::width).sum();
        let free = self.command.len() - usize::from(self.full);
        let mut session =
            Session::new(thresholds.collect::<Vec<_>>()).with_journal_length(before + free);
        session.extend(self.before.iter().cloned());
        session.push_raw(&self.command);
        let outcome = session.run();
        assert_eq!(outcome.steps.len(), self.before.len() + 1);
        assert!(
            outcome
                .answers()
                .take(self.before.len())
                .all(|answer| answer.is_accepted())
        );
        usize::from(outcome.steps.last().expect("the command").answer.number())
    }
}

fn commands() -> Vec<Command> {
    let (clock, now, censor, priority) = (0, 0.0, None, 0);
    vec![
        create(Policy::Restart),
        set(99, 0.5, 0.0),
        Command::Remove { clock, cause: 1 },
        reschedule(0.0),
        Command::Pause { clock, now },
        Command::Resume {
            clock,
            now,
            censor,
            priority,
        },
        Command::Deliver,
        Command::Undo,
    ]
}

#[test]
fn of_two_conditions_the_first_in_the_table_decides() {
    for command in commands() {
        let mut numbers = refusals(command.name());
        // from opening 13 cannot come
        numbers.retain(|number| *number != 13);
        assert_eq!(Case::new(command.clone()).number(), 0, "{}", command.name());
        for (place, first) in numbers.iter().enumerate() {
            for second in &numbers[place..] {
                let mut case = Case::new(command.clone());
                case.refuse_by(*second);
                if first != second {
                    case.refuse_by(*first);
                }
                assert_eq!(
                    case.number(),
                    *first,
                    "{} by {first} and {second}",
                    command.name()
                );
            }
        }
    }
}

#[test]
fn no_command_is_refused_by_another_number() {
    let mut random = Random(20261116);
    for _ in 0..2_000 {
        let mut session = likely_session(&mut random, 20).with_journal_length(900);
        session.extend((0..10).map(|_| any_command(&mut random)));
        let outcome = session.run();
        for step in &outcome.steps {
            let number = usize::from(step.answer.number());
            let name = step
                .input
                .command()
                .expect("only commands were given")
                .name();
            assert!(
                number == 0 || refusals(name).contains(&number),
                "{name} by {number}"
            );
        }
    }
}
