//! What is wrong with a line: where, and what was expected.

use super::visible::{columns, ends, visible};
use std::error::Error;
use std::fmt;

/// A bad line. Lines and columns count from 1, columns in characters.
#[derive(Clone, Debug, PartialEq, Eq)]
#[non_exhaustive]
pub struct Fault {
    /// How the text is called in which it stands.
    pub file: String,
    /// Its line.
    pub line: usize,
    /// The column at which something else was expected.
    pub column: usize,
    /// What is wrong, and what was expected.
    pub message: String,
    /// The line as it stands in the text.
    pub source: String,
}

/// The same without file and line, which the caller knows.
#[derive(Clone, Debug, PartialEq)]
pub(crate) struct Misplaced {
    pub column: usize,
    pub message: String,
}

/// Characters of a message; of a longer one, which has a long word in it, both ends are kept.
const LONGEST_MESSAGE: usize = 400;

impl Misplaced {
    pub fn new(column: usize, message: impl Into<String>) -> Self {
        let message = ends(&message.into(), LONGEST_MESSAGE);
        Self { column, message }
    }

    /// With the line that it was found in.
    pub fn within(self, file: &str, line: usize, source: &str) -> Fault {
        Fault {
            file: file.to_string(),
            line,
            column: self.column,
            message: self.message,
            source: source.to_string(),
        }
    }
}

/// Where and what; below it the line, so far as it stands near, and a caret. Control characters are replaced.
impl fmt::Display for Fault {
    fn fmt(&self, f: &mut fmt::Formatter) -> fmt::Result {
        let (file, message) = (visible(&self.file), visible(&self.message));
        let (line, column) = (self.line, self.column);
        let (before, behind) = self.near();
        let caret = " ".repeat(columns(&before));
        write!(
            f,
            "{file}:{line}:{column}: {message}\n    {before}{behind}\n    {caret}^"
        )
    }
}

/// Characters of a line that are shown before a fault, and from it on.
const SHOWN: usize = 160;

impl Fault {
    /// The line before the fault and from it on, so far as they are shown.
    fn near(&self) -> (String, String) {
        let source = self.source.trim_end();
        let before = self.column.saturating_sub(1);
        let left_out = before.saturating_sub(SHOWN);
        let mut near = source.chars().skip(left_out);
        let mut front: String = near.by_ref().take(before - left_out).collect();
        let mut back: String = near.by_ref().take(SHOWN).collect();
        // a fault may lie past the line's end
        let missing = before - left_out - front.chars().count();
        if left_out > 0 {
            front.insert(0, '…');
        }
        if near.next().is_some() {
            back.push('…');
        }
        front.push_str(&" ".repeat(missing));
        (visible(&front).into_owned(), visible(&back).into_owned())
    }
}

impl Error for Fault {}

/// Every bad line of a text, in order. There is at least one.
#[derive(Clone, Debug, PartialEq, Eq)]
pub struct TextError {
    faults: Vec<Fault>,
}

/// How many bad lines are shown at most.
const MOST_SHOWN: usize = 20;

impl TextError {
    pub(crate) fn new(faults: Vec<Fault>) -> Self {
        Self { faults }
    }

    /// The bad lines.
    #[must_use]
    pub fn faults(&self) -> &[Fault] {
        &self.faults
    }
}

impl From<Fault> for TextError {
    fn from(fault: Fault) -> Self {
        Self::new(vec![fault])
    }
}

/// The first twenty, each in three lines, and how many more there are.
impl fmt::Display for TextError {
    fn fmt(&self, f: &mut fmt::Formatter) -> fmt::Result {
        for (index, fault) in self.faults.iter().take(MOST_SHOWN).enumerate() {
            f.write_str(if index > 0 { "\n" } else { "" })?;
            fault.fmt(f)?;
        }
        match self.faults.len().saturating_sub(MOST_SHOWN) {
            0 => Ok(()),
            1 => write!(f, "\nand 1 more bad line"),
            more => write!(f, "\nand {more} more bad lines"),
        }
    }
}

impl Error for TextError {}
