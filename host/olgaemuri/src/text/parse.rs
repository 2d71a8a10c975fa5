//! One line of a session, read.

use super::commands::{COMMANDS, known_operands, read_command};
use super::fault::{Fault, Misplaced};
use super::line::{ByName, Item, Line};
use super::load::Source;
use super::names::{Named, Names};
use super::number::{parse_float, parse_whole};
use super::session::SessionText;
use super::words::{Word, Words, split};
use crate::command::Command;
use std::fs;
use std::str::FromStr;

/// The words that begin a line that is no typed command.
const OTHERS: [&str; 5] = ["thresholds", "journal", "machine", "cause", "raw"];

/// The words that begin a line, those of commands first.
pub fn line_words() -> impl Iterator<Item = &'static str> {
    COMMANDS.iter().map(|command| command.0).chain(OTHERS)
}

/// Reads line after line and keeps the names that they give.
#[derive(Clone, Debug, Default)]
pub struct Reader {
    source: Source,
    names: Names,
    journal: bool,
}

/// What went wrong with a line: something in it, or in the file of thresholds that it names.
enum Wrong {
    Here(Misplaced),
    There(Fault),
}

impl From<Misplaced> for Wrong {
    fn from(misplaced: Misplaced) -> Self {
        Self::Here(misplaced)
    }
}

impl Reader {
    /// A reader for a text that begins.
    #[must_use]
    pub fn new(source: Source) -> Self {
        Self {
            source,
            ..Self::default()
        }
    }

    /// A reader that goes on where a session ends.
    #[must_use]
    pub fn after(session: &SessionText, source: Source) -> Self {
        Self {
            source,
            names: session.names().clone(),
            journal: session.journal().is_some(),
        }
    }

    /// The names that were given so far.
    #[must_use]
    pub fn names(&self) -> &Names {
        &self.names
    }

    pub(crate) fn into_names(self) -> Names {
        self.names
    }

    /// Reads a line, the number-th of its text.
    ///
    /// # Errors
    ///
    /// The line is a bad one. Then the reader is as it was.
    pub fn read(&mut self, source: &str, number: usize) -> Result<Line, Fault> {
        self.line(source).map_err(|wrong| match wrong {
            Wrong::Here(misplaced) => misplaced.within(&self.source.name, number, source),
            Wrong::There(fault) => fault,
        })
    }

    fn line(&mut self, source: &str) -> Result<Line, Wrong> {
        let words = split(source)?;
        let mut line = Line {
            comment: words.comment.clone(),
            ..Line::default()
        };
        if !words.words.is_empty() {
            let (item, by_name) = self.item(&words)?;
            (line.item, line.by_name) = (Some(item), by_name);
        }
        Ok(line)
    }

    fn item(&mut self, words: &Words) -> Result<(Item, ByName), Wrong> {
        let first = &words.words[0];
        let item = match first.text.as_str() {
            "thresholds" => self.thresholds(words)?,
            "journal" => self.journal(words)?,
            "machine" => {
                let (number, name) = self.name(words, Named::Machine)?;
                Item::Machine(number as u8, name)
            }
            "cause" => {
                let (number, name) = self.name(words, Named::Cause)?;
                Item::Cause(number, name)
            }
            "raw" => Item::Raw(raw(words)?),
            _ => {
                let known = known_operands(first, &OTHERS)?;
                let (command, by_name) = read_command(words, known, &self.names)?;
                return Ok((Item::Command(command), by_name));
            }
        };
        Ok((item, ByName::default()))
    }

    fn thresholds(&self, words: &Words) -> Result<Item, Wrong> {
        let values = &words.words[1..];
        if values.first().is_some_and(|word| word.text == "from") {
            let [file] = exactly(&values[1..], words.end, "a file name in quotes")?;
            let name = file.unquoted("a file name in quotes, such as \"shop.thresholds\"")?;
            return Ok(Item::ThresholdsFrom(
                name.clone(),
                self.threshold_file(file, &name)?,
            ));
        }
        if values.is_empty() {
            return Err(Misplaced::new(
                words.end,
                "expected thresholds: numbers, or from \"FILE\"",
            )
            .into());
        }
        let values: Result<Vec<f64>, Misplaced> = values.iter().map(float).collect();
        Ok(Item::Thresholds(values?))
    }

    /// The thresholds of a file beside the session.
    fn threshold_file(&self, word: &Word, name: &str) -> Result<Vec<f64>, Wrong> {
        let here = |message: String| Misplaced::new(word.column, message);
        let folder = self.source.folder.as_ref().ok_or_else(|| {
            here("expected the thresholds themselves: this text stands in no folder".to_string())
        })?;
        let path = folder.join(name);
        let text = fs::read_to_string(&path).map_err(|error| {
            here(format!(
                "cannot read the thresholds of {}: {error}",
                path.display()
            ))
        })?;
        let mut values = Vec::new();
        for (index, line) in without_mark(&text).lines().enumerate() {
            let found = split(line)
                .and_then(|words| words.words.iter().map(float).collect::<Result<Vec<_>, _>>());
            let place = path.display().to_string();
            values.extend(
                found.map_err(|wrong| Wrong::There(wrong.within(&place, index + 1, line)))?,
            );
        }
        Ok(values)
    }

    fn journal(&mut self, words: &Words) -> Result<Item, Misplaced> {
        let [length] = exactly(
            &words.words[1..],
            words.end,
            "the journal's length in bytes",
        )?;
        if self.journal {
            return Err(Misplaced::new(
                words.words[0].column,
                "the journal's length is given already",
            ));
        }
        let value = parse_whole(&length.text, 0, MAX_JOURNAL);
        let value = value.map_err(|message| Misplaced::new(length.column, message))?;
        self.journal = true;
        Ok(Item::Journal(value))
    }

    fn name(&mut self, words: &Words, named: Named) -> Result<(u32, String), Misplaced> {
        let expected = format!(
            "a number and a name in quotes, such as {} 3 \"press 1\"",
            named.word()
        );
        let [number, name] = exactly(&words.words[1..], words.end, &expected)?;
        let value = parse_whole(&number.text, 0, named.last());
        let value = value.map_err(|message| Misplaced::new(number.column, message))?;
        let text = name.name()?;
        let added = self.names.add(named, value, &text);
        added.map_err(|message| Misplaced::new(number.column, message))?;
        Ok((value, text))
    }
}

/// A line of a session that is a command, with numbers for machine and cause; what [`Display`](std::fmt::Display) writes is one.
impl FromStr for Command {
    type Err = Fault;

    fn from_str(text: &str) -> Result<Self, Fault> {
        let mut reader = Reader::new(Source::named("command"));
        match reader.read(text, 1)?.item {
            Some(Item::Command(command)) => Ok(command),
            _ => Err(Misplaced::new(1, "expected a command").within("command", 1, text)),
        }
    }
}

/// Some editors put it at the front of a text.
const BYTE_ORDER_MARK: char = '\u{feff}';

/// The text behind a byte order mark, if it has one.
pub(crate) fn without_mark(text: &str) -> &str {
    text.strip_prefix(BYTE_ORDER_MARK).unwrap_or(text)
}

/// The longest journal that a session may ask for, 1 GiB.
pub(crate) const MAX_JOURNAL: u64 = 1 << 30;

/// As many words as are wanted, no fewer and no more.
fn exactly<'a, const N: usize>(
    words: &'a [Word],
    end: usize,
    expected: &str,
) -> Result<&'a [Word; N], Misplaced> {
    if let Some(word) = words.get(N) {
        return Err(Misplaced::new(
            word.column,
            format!("unexpected `{}`", word.text),
        ));
    }
    let words = words.try_into().ok();
    words.ok_or_else(|| Misplaced::new(end, format!("expected {expected}")))
}

fn float(word: &Word) -> Result<f64, Misplaced> {
    parse_float(&word.text).map_err(|message| Misplaced::new(word.column, message))
}

/// Bytes in hexadecimal, in one word or several.
fn raw(words: &Words) -> Result<Vec<u8>, Misplaced> {
    let mut bytes = Vec::new();
    for word in &words.words[1..] {
        bytes.extend(hexadecimal(word)?);
    }
    if bytes.is_empty() {
        return Err(Misplaced::new(
            words.end,
            "expected bytes in hexadecimal, such as 09 ff",
        ));
    }
    Ok(bytes)
}

fn hexadecimal(word: &Word) -> Result<Vec<u8>, Misplaced> {
    let digits: Option<Vec<u32>> = word.text.chars().map(|c| c.to_digit(16)).collect();
    match digits {
        Some(digits) if digits.len() % 2 == 0 => Ok(digits
            .chunks(2)
            .map(|pair| (16 * pair[0] + pair[1]) as u8)
            .collect()),
        _ => {
            let message = format!(
                "expected bytes in hexadecimal, two digits each, not `{}`",
                word.text
            );
            Err(Misplaced::new(word.column, message))
        }
    }
}
