//! What was compared.

use std::fmt::{self, Display, Formatter};

/// Inputs, and those among them that 1 and 13 refused.
#[derive(Default)]
pub struct Refusals {
    inputs: u64,
    by_1: u64,
    by_13: u64,
}

impl Refusals {
    pub fn count(&mut self, number: u8) {
        self.inputs += 1;
        self.by_1 += u64::from(number == 1);
        self.by_13 += u64::from(number == 13);
    }

    /// What was counted elsewhere too.
    pub fn add(&mut self, other: &Refusals) {
        self.inputs += other.inputs;
        self.by_1 += other.by_1;
        self.by_13 += other.by_13;
    }

    /// Neither number is missing.
    fn has_both(&self) -> bool {
        self.by_1 > 0 && self.by_13 > 0
    }
}

impl Display for Refusals {
    fn fmt(&self, f: &mut Formatter<'_>) -> fmt::Result {
        write!(f, "{} ", self.inputs)?;
        write!(f, "({} refused by 1, {} by 13)", self.by_1, self.by_13)
    }
}

#[derive(Default)]
pub struct Tally {
    /// Inputs to the chosen states.
    pub handed_in: Refusals,
    pub commands: u64,
    /// Inputs to states with another field or another applied bit, with any other number of the rows; UNDOs with each other number.
    pub fields: Refusals,
    pub numbers: Refusals,
    pub each: Refusals,
    /// Rows that are no coded state, that the Rust's values cannot express, and that hold numbers beside the Rust's.
    pub uncoded: u64,
    pub inexpressible: u64,
    pub beside: u64,
}

impl Tally {
    /// Whether every sort of refusal and of rows occurred.
    pub fn is_full(&self) -> bool {
        let refusals = [&self.handed_in, &self.fields, &self.numbers, &self.each];
        let rows = [self.uncoded, self.inexpressible, self.beside];
        refusals.iter().all(|r| r.has_both()) && !rows.contains(&0)
    }
}

impl Display for Tally {
    fn fmt(&self, f: &mut Formatter<'_>) -> fmt::Result {
        write!(f, "{} commands; inputs to chosen states ", self.commands)?;
        write!(f, "{}; inputs to tampered states: ", self.handed_in)?;
        write!(f, "another field {}, ", self.fields)?;
        write!(f, "any other number {}, ", self.numbers)?;
        write!(f, "each number before UNDO {}; ", self.each)?;
        write!(f, "of the first two {} to uncoded rows, ", self.uncoded)?;
        write!(f, "{} to states only of the port, ", self.inexpressible)?;
        write!(f, "{} to states beside other numbers", self.beside)
    }
}
