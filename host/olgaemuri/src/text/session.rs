//! A whole session in text.

use super::fault::{Fault, Misplaced, TextError};
use super::line::{Item, Line};
use super::load::Source;
use super::names::{Named, Names};
use super::parse::{Reader, without_mark};
use crate::input::Input;
use crate::session::Session;
use std::fmt;
use std::str::FromStr;

/// A session as it is written: its lines with their comments, and the names that they give.
///
/// ```
/// use olgaemuri::SessionText;
///
/// let text = "thresholds 2\nmachine 0 \"press 1\"  # the old one\ncreate machine=\"press 1\" policy=retain\n";
/// let session: SessionText = text.parse()?;
/// assert_eq!(session.names().machine(0), "press 1");
/// assert_eq!(session.session().run().clocks.len(), 1);
/// # Ok::<(), olgaemuri::TextError>(())
/// ```
#[derive(Clone, Debug, Default, PartialEq)]
pub struct SessionText {
    lines: Vec<Line>,
    names: Names,
}

impl SessionText {
    /// Reads a text, or tells every bad line.
    ///
    /// # Errors
    ///
    /// The bytes are no UTF-8, or there are bad lines.
    pub fn parse(bytes: &[u8], source: &Source) -> Result<Self, TextError> {
        let text = str::from_utf8(bytes)
            .map_err(|error| not_text(&source.name, bytes, error.valid_up_to()))?;
        let mut reader = Reader::new(source.clone());
        let mut lines = Vec::new();
        let mut faults = Vec::new();
        for (index, source) in without_mark(text).lines().enumerate() {
            match reader.read(source, index + 1) {
                Ok(line) => lines.push(line),
                Err(fault) => faults.push(fault),
            }
        }
        if faults.is_empty() {
            Ok(Self::new(lines, reader.into_names()))
        } else {
            Err(TextError::new(faults))
        }
    }

    /// These lines, with the names that they give.
    pub(crate) fn new(lines: Vec<Line>, names: Names) -> Self {
        Self { lines, names }
    }

    /// The lines.
    #[must_use]
    pub fn lines(&self) -> &[Line] {
        &self.lines
    }

    /// The names.
    #[must_use]
    pub fn names(&self) -> &Names {
        &self.names
    }

    /// The names without the lines.
    #[must_use]
    pub fn into_names(self) -> Names {
        self.names
    }

    /// Adds a line that a [`Reader`] of this session has read, and the name that it gives, if it gives one.
    pub fn push(&mut self, line: Line, reader: &Reader) {
        let named = match line.item {
            Some(Item::Machine(number, _)) => Some((Named::Machine, u32::from(number))),
            Some(Item::Cause(number, _)) => Some((Named::Cause, number)),
            _ => None,
        };
        if let Some((named, number)) = named
            && let Some(name) = reader.names().given(named, number)
        {
            // the reader refuses a name or a number that is given already
            let _ = self.names.add(named, number, name);
        }
        self.lines.push(line);
    }

    fn items(&self) -> impl Iterator<Item = &Item> {
        self.lines.iter().filter_map(|line| line.item.as_ref())
    }

    /// The journal's length, where it is given.
    #[must_use]
    pub fn journal(&self) -> Option<u64> {
        self.items().find_map(|item| match item {
            Item::Journal(length) => Some(*length),
            _ => None,
        })
    }

    /// The thresholds of all lines.
    #[must_use]
    pub fn thresholds(&self) -> Vec<f64> {
        let values = self.items().filter_map(Item::thresholds);
        values.flatten().copied().collect()
    }

    /// The list of commands as the engine takes it.
    #[must_use]
    pub fn commands(&self) -> Vec<u8> {
        let mut bytes = Vec::with_capacity(self.items().map(Item::width).sum());
        for item in self.items() {
            bytes.extend(item.bytes());
        }
        bytes
    }

    /// The line, from 1, in which each of these inputs of the list begins.
    #[must_use]
    pub fn lines_of<'a>(&self, inputs: impl Iterator<Item = &'a Input>) -> Vec<usize> {
        self.lines_behind(0, inputs)
    }

    /// The same for the inputs that begin behind so many lines.
    #[must_use]
    pub fn lines_behind<'a>(
        &self,
        lines: usize,
        inputs: impl Iterator<Item = &'a Input>,
    ) -> Vec<usize> {
        let numbered = self.lines.iter().zip(1..).skip(lines);
        let ends = numbered.scan(0, |end, (line, number)| {
            *end += line.item.as_ref().map_or(0, Item::width);
            Some((*end, number))
        });
        let mut ends = ends.peekable();
        let mut begin = 0;
        let mut found = Vec::new();
        for input in inputs {
            while ends.next_if(|(end, _)| *end <= begin).is_some() {}
            found.extend(ends.peek().map(|(_, number)| *number));
            begin += input.width();
        }
        found
    }

    /// The session that the engine is given.
    #[must_use]
    pub fn session(&self) -> Session {
        Session::of(self.thresholds(), self.commands(), self.journal())
    }

    /// The same session without reference to files of thresholds: their values stand in it.
    #[must_use]
    pub fn self_contained(mut self) -> Self {
        for line in &mut self.lines {
            if let Some(Item::ThresholdsFrom(_, values)) = &mut line.item {
                line.item = Some(Item::Thresholds(std::mem::take(values)));
            }
        }
        self
    }
}

/// Every line written in one way, with its comment and with names where it has them.
impl fmt::Display for SessionText {
    fn fmt(&self, f: &mut fmt::Formatter) -> fmt::Result {
        self.lines
            .iter()
            .try_for_each(|line| line.write(f, &self.names))
    }
}

/// The text may not name files of thresholds, since it stands in no folder; [`SessionText::open`] reads these too.
impl FromStr for SessionText {
    type Err = TextError;

    fn from_str(text: &str) -> Result<Self, TextError> {
        Self::parse(text.as_bytes(), &Source::named("text"))
    }
}

/// Without comments and names.
impl From<&Session> for SessionText {
    fn from(session: &Session) -> Self {
        let journal = session.chosen_journal_length().map(Item::Journal);
        let thresholds = session.thresholds();
        let thresholds = (!thresholds.is_empty()).then(|| Item::Thresholds(thresholds.to_vec()));
        let inputs = session.inputs().into_iter().map(Item::from);
        let items = journal.into_iter().chain(thresholds).chain(inputs);
        Self::new(items.map(Line::from).collect(), Names::default())
    }
}

/// As [`SessionText`] writes it.
impl fmt::Display for Session {
    fn fmt(&self, f: &mut fmt::Formatter) -> fmt::Result {
        SessionText::from(self).fmt(f)
    }
}

/// As [`SessionText`] reads it. Comments and names are left behind.
impl FromStr for Session {
    type Err = TextError;

    fn from_str(text: &str) -> Result<Self, TextError> {
        text.parse().map(|text: SessionText| text.session())
    }
}

/// Bytes that are no UTF-8, from this place on.
fn not_text(file: &str, bytes: &[u8], place: usize) -> Fault {
    let before = String::from_utf8_lossy(&bytes[..place]);
    let line = before.matches('\n').count() + 1;
    let start = before.rfind('\n').map_or(0, |at| at + 1);
    let column = before[start..].chars().count() + 1;
    let message = "expected text in UTF-8; `olgaemuri help convert` tells of sessions in bytes";
    Misplaced::new(column, message).within(file, line, &before[start..])
}
