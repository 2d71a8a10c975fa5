//! Inputs to states that were tampered with.

use crate::both::Both;
use crate::engine;
use crate::layout::{APPLIED_LENGTH, Layout, places};
use crate::reading::{self, Reading};
use crate::rows::Rows;
use crate::tally::Tally;
use crate::tampering;
use cases::random::Random;
use olgaemuri_sys::ANSWER_BYTES;
use reference::command::{DELIVER, UNDO};
use reference::execute::execute;
use reference::record::{decode, encode};
use reference::state::State;

/// What the tries of one session have in common.
pub struct Tries<'a> {
    pub layout: &'a Layout,
    pub stream: &'a [u8],
    pub random: &'a mut Random,
    pub tally: &'a mut Tally,
}

impl Tries<'_> {
    /// An input to the state with one field changed or with another bit among the applied commands.
    pub fn other_field(&mut self, both: &Both, next: &[u8]) -> Result<(), String> {
        let (mut record, mut journal) = (both.rows.record(self.layout), both.journal.clone());
        let what = if self.random.chance(20) {
            tampering::tamper_journal(self.random, &mut journal, both.applied_length());
            "applied commands".to_string()
        } else {
            tampering::tamper(self.random, &self.layout.fields, &mut record)
        };
        let input = self.input(next);
        // What stands beside a flag that is not set is dropped.
        let rows = match decode(&record) {
            Some(state) => Rows::of(self.layout, &encode(&state)),
            None => Rows::of(self.layout, &record),
        };
        if rows.is_same(&both.rows) && journal == both.journal {
            return Ok(());
        }
        let number = self.number(&rows, &journal, input);
        let number = number.map_err(|words| format!("with {what} tampered: {words}"))?;
        self.tally.fields.count(number);
        Ok(())
    }

    /// An input to the state with any number of its rows changed.
    pub fn other_number(&mut self, both: &Both, next: &[u8]) -> Result<(), String> {
        let mut rows = both.rows.clone();
        let place = tampering::tamper_rows(self.random, &mut rows);
        let input = self.input(next);
        let said = |words| format!("with {} altered: {words}", self.layout.words(place));
        let number = self.number(&rows, &both.journal, input).map_err(said)?;
        let replayed = input[..] == [UNDO] && both.applied_length() > 0 && place != APPLIED_LENGTH;
        if replayed && !is_1_or_13(number) {
            let what = self.layout.words(place);
            return Err(format!("UNDO with {what} altered is answered by {number}"));
        }
        self.tally.numbers.count(number);
        Ok(())
    }

    /// UNDO with each number of the rows in turn changed by one bit: 1 or 13, and everything stays. Another applied length may be that of
    /// a state too.
    pub fn each_number(&mut self, both: &Both) -> Result<(), String> {
        if both.applied_length() == 0 {
            return Ok(());
        }
        let mut rows = both.rows.clone();
        for place in places().filter(|place| *place != APPLIED_LENGTH) {
            let bits = rows.bits(place);
            rows.put(place, bits ^ 1 << self.random.below(64));
            let number = refusal(&rows, &both.journal, self.stream, &[UNDO]);
            match number {
                Some(number) if is_1_or_13(number) => self.tally.each.count(number),
                _ => {
                    let what = self.layout.words(place);
                    return Err(format!("UNDO with {what} altered: 1 or 13 is due"));
                }
            }
            rows.put(place, bits);
        }
        Ok(())
    }

    /// The next command, DELIVER or UNDO.
    fn input<'a>(&mut self, next: &'a [u8]) -> &'a [u8] {
        match self.random.below(4) {
            0 => &[DELIVER],
            1 => next,
            _ => &[UNDO],
        }
    }

    /// The number that any rows are answered with, held to what the oracle says of them.
    pub fn number(&mut self, rows: &Rows, journal: &[u8], input: &[u8]) -> Result<u8, String> {
        match reading::read(self.layout, rows) {
            Reading::Uncoded => {
                self.tally.uncoded += 1;
                self.refused(rows, journal, input, 1)
            }
            Reading::Inexpressible => {
                self.tally.inexpressible += 1;
                self.refused(rows, journal, input, 1)
            }
            Reading::Exact(state) => {
                let mut other = Both::with(self.layout, state, journal);
                let answer = other.give(self.layout, self.stream, input)?;
                Ok(answer[0])
            }
            Reading::Beside(state) => {
                self.tally.beside += 1;
                self.number_beside(rows, state, journal, input)
            }
        }
    }

    /// UNDO sees a number that the Rust does not hold; to any other command it makes no difference.
    fn number_beside(
        &mut self,
        rows: &Rows,
        state: State,
        journal: &[u8],
        input: &[u8],
    ) -> Result<u8, String> {
        if input.first() == Some(&UNDO) {
            let (mut state, mut journal_after) = (state, journal.to_vec());
            let said = execute(&mut state, &mut journal_after, self.stream, input).number;
            return self.refused(rows, journal, input, if said == 0 { 13 } else { said });
        }
        let mut other = Both::with(self.layout, state, journal);
        let answer = other.give_beside(self.layout, rows.clone(), self.stream, input)?;
        match answer[0] {
            0 => Ok(0),
            number => self.refused(rows, journal, input, number),
        }
    }

    fn refused(&self, rows: &Rows, journal: &[u8], input: &[u8], due: u8) -> Result<u8, String> {
        match refusal(rows, journal, self.stream, input) {
            Some(number) if number == due => Ok(number),
            _ => Err(format!("refusal {due} is due, with nothing changed")),
        }
    }
}

fn is_1_or_13(number: u8) -> bool {
    number == 1 || number == 13
}

/// The number of a refusal that leaves rows and journal as they are and has zero elsewhere in its answer.
fn refusal(rows: &Rows, journal: &[u8], stream: &[u8], input: &[u8]) -> Option<u8> {
    let (mut after, mut bytes) = (rows.clone(), journal.to_vec());
    let answer = engine::execute(&mut after, stream, &mut bytes, input);
    let is_refusal = answer[0] != 0 && answer[1..] == [0; ANSWER_BYTES - 1];
    (is_refusal && after.is_same(rows) && bytes == journal).then_some(answer[0])
}
