//! The same state, journal and input for both sides, and what differs after it.

use crate::engine;
use crate::layout::{Field, Kind, Layout};
use crate::reading::{self, Reading};
use crate::rows::Rows;
use olgaemuri_sys::ANSWER_BYTES;
use reference::execute::execute;
use reference::record::encode;
use reference::state::{State, applied, open};

/// What both sides hold: the rows and the journal of the Rattle engine, the state and the journal of the oracle.
#[derive(Clone)]
pub struct Both {
    pub rows: Rows,
    pub journal: Vec<u8>,
    state: State,
    rust_journal: Vec<u8>,
}

/// A difference in words, or the answer.
pub type Outcome = Result<[u8; ANSWER_BYTES], String>;

impl Both {
    /// Two newly opened engines, over rows and journals that opening has to fill.
    pub fn open(journal: usize) -> Self {
        let (mut rows, mut rust_journal) = (Rows::filled(u64::MAX), vec![0x5A; journal]);
        let mut journal = rust_journal.clone();
        assert_eq!(engine::open(&mut rows, &mut journal), 0);
        Self {
            rows,
            journal,
            state: open(&mut rust_journal),
            rust_journal,
        }
    }

    /// Both sides with another state and journal.
    pub fn with(layout: &Layout, state: State, journal: &[u8]) -> Self {
        Self {
            rows: Rows::of(layout, &encode(&state)),
            journal: journal.to_vec(),
            state,
            rust_journal: journal.to_vec(),
        }
    }

    /// How many bytes are applied.
    pub fn applied_length(&self) -> usize {
        self.state.applied_length as usize
    }

    /// One input: the answer, the journal, the whole state and the applied commands.
    pub fn give(&mut self, layout: &Layout, stream: &[u8], input: &[u8]) -> Outcome {
        let answer = self.answer(stream, input)?;
        self.same_state(layout)?;
        self.same_applied()?;
        Ok(answer)
    }

    /// One input but UNDO to rows that hold this state beside numbers that the Rust does not hold: the same but for such numbers.
    pub fn give_beside(
        &mut self,
        layout: &Layout,
        rows: Rows,
        stream: &[u8],
        input: &[u8],
    ) -> Outcome {
        self.rows = rows;
        let answer = self.answer(stream, input)?;
        match reading::read(layout, &self.rows) {
            Reading::Exact(state) | Reading::Beside(state) => {
                self.rows = Rows::of(layout, &encode(&state));
            }
            _ => return Err("the rows are none of the Rust's states any more".to_string()),
        }
        self.same_state(layout)?;
        Ok(answer)
    }

    /// One input to both sides: the answer and the journal.
    fn answer(&mut self, stream: &[u8], input: &[u8]) -> Outcome {
        let rattle = engine::execute(&mut self.rows, stream, &mut self.journal, input);
        let rust = execute(&mut self.state, &mut self.rust_journal, stream, input).to_bytes();
        same_answer(&rust, &rattle)?;
        same_journal(&self.rust_journal, &self.journal)?;
        Ok(rattle)
    }

    /// The applied commands and their number; a refusal's part is empty.
    fn same_applied(&self) -> Result<(), String> {
        let expected = match applied(&self.state, &self.rust_journal) {
            Ok(commands) => (0, commands),
            Err(refusal) => (refusal.number(), &[][..]),
        };
        if expected == engine::applied(&self.rows, &self.journal) {
            return Ok(());
        }
        Err("the applied commands or their number differ".to_string())
    }

    /// Every field of the state, and zero in every spare place.
    pub fn same_state(&self, layout: &Layout) -> Result<(), String> {
        let expected = encode(&self.state);
        let differs = |f: &&Field| !is_same(f.kind, f.bits(&expected), self.rows.bits(f.place));
        if let Some(field) = layout.fields.iter().find(differs) {
            let (rust, rattle) = (field.bits(&expected), self.rows.bits(field.place));
            let words = field.words();
            return Err(format!(
                "{words} differs: {rust:#x} in the Rust, {rattle:#x} here"
            ));
        }
        match layout.spare.iter().find(|p| self.rows.bits(**p) != 0) {
            None => Ok(()),
            Some(place) => Err(format!("the {} is not zero", layout.words(*place))),
        }
    }
}

/// The same bits, or two NaNs: the port has one, the processor's may have a sign.
fn is_same(kind: Kind, rust: u64, rattle: u64) -> bool {
    rust == rattle || (kind == Kind::Float && is_nan(rust) && is_nan(rattle))
}

fn is_nan(bits: u64) -> bool {
    f64::from_bits(bits).is_nan()
}

fn same_answer(rust: &[u8; ANSWER_BYTES], rattle: &[u8; ANSWER_BYTES]) -> Result<(), String> {
    let same = rust[..8] == rattle[..8] && rust[16..] == rattle[16..];
    if same && is_same(Kind::Float, delta(rust), delta(rattle)) {
        return Ok(());
    }
    Err(format!(
        "the answer differs: {rust:02x?} in the Rust, {rattle:02x?} here"
    ))
}

/// The bits of an answer's delta.
fn delta(answer: &[u8; ANSWER_BYTES]) -> u64 {
    u64::from_le_bytes(answer[8..16].try_into().expect("eight bytes"))
}

fn same_journal(rust: &[u8], rattle: &[u8]) -> Result<(), String> {
    match rust.iter().zip(rattle).position(|(a, b)| a != b) {
        None => Ok(()),
        Some(at) => Err(format!("the journal differs at byte {at}")),
    }
}
