//! The request ledger (document 01's book): requests counted from commands and answers alone,
//! apart from the engine's records.

use crate::answer::Answer;
use crate::command::Command;
use crate::command_fields::CLOCKS;
use std::cmp::Reverse;

/// Document 01's noted request, in the order of delivery: fewest ticks, higher priority, lower index.
pub type Pending = (u128, Reverse<i32>, u64);

/// The requests of one clock.
#[derive(Clone, Copy, Debug, Default, PartialEq)]
pub struct Account {
    pub made: u64,
    pub withdrawn: u64,
    pub delivered: u64,
    pub pending: Option<Pending>,
}

#[derive(Clone, Debug, Default, PartialEq)]
pub struct Ledger {
    pub accounts: [Account; CLOCKS],
}

impl Ledger {
    /// Enters an applied command with the answer that it got.
    pub fn enter(&mut self, command: &Command, answer: &Answer) {
        match command {
            Command::Deliver => self.deliver(),
            Command::Reschedule(operands) | Command::Resume(operands) => {
                self.withdraw(operands.clock, answer);
                self.make(operands.clock, answer, operands.priority);
            }
            Command::Pause { clock, .. } => self.withdraw(*clock, answer),
            Command::Create(_) | Command::Set(_) | Command::Remove { .. } | Command::Undo => {}
        }
    }

    fn withdraw(&mut self, clock: u8, answer: &Answer) {
        if answer.withdrawn {
            let account = &mut self.accounts[usize::from(clock)];
            account.withdrawn += 1;
            account.pending = None;
        }
    }

    fn make(&mut self, clock: u8, answer: &Answer, priority: i32) {
        if answer.event {
            let index = self.accounts.iter().map(|account| account.made).sum();
            let account = &mut self.accounts[usize::from(clock)];
            account.made += 1;
            account.pending = Some((answer.ticks(), Reverse(priority), index));
        }
    }

    fn deliver(&mut self) {
        let pending = self.accounts.iter_mut().filter(|a| a.pending.is_some());
        if let Some(account) = pending.min_by_key(|account| account.pending) {
            account.pending = None;
            account.delivered += 1;
        }
    }
}
