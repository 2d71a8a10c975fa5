//! A session while it is typed.

use super::shown;
use crate::cli::curve;
use crate::cli::report::Report;
use crate::cli::terminal;
use crate::cli::wording::counted;
use olgaemuri::text::{Item, Line, Reader, Source, visible};
use olgaemuri::{Command, Refusal};
use std::io::{self, Write};

pub struct Typed<'a> {
    pub report: Report,
    reader: Reader,
    /// How many lines were typed.
    pub count: usize,
    /// Whether anything was added since it was saved.
    pub changed: bool,
    /// The words and files of `save` and `picture` so far; the same may be written again.
    pub written: Vec<(String, String)>,
    pub out: &'a mut dyn Write,
}

impl<'a> Typed<'a> {
    pub fn new(report: Report, out: &'a mut dyn Write) -> Self {
        let reader = reader_after(&report);
        Self {
            report,
            reader,
            count: 0,
            changed: false,
            written: Vec::new(),
            out,
        }
    }

    /// Says something in a line or several. Control characters in it are not obeyed.
    pub fn say(&mut self, words: &str) -> io::Result<()> {
        writeln!(self.out, "{}", visible(words))
    }

    pub fn status(&mut self) -> io::Result<()> {
        let status = shown::status(&self.report);
        self.say(&status)
    }

    pub fn list(&mut self) -> io::Result<()> {
        let list = shown::list(&self.report, terminal::width());
        self.say(&list)
    }

    /// The rate curve of a cause, which is named behind the word.
    pub fn curve(&mut self, rest: &str) -> io::Result<()> {
        let told = curve::told(&self.report, rest, terminal::width());
        self.say(&told)
    }

    /// Reads a line of the session and tries it. Comments and names, of which the engine knows nothing, are kept without a run.
    pub fn read(&mut self, line: &str) -> io::Result<()> {
        let line = match self.reader.read(line, self.count) {
            Ok(line) => line,
            Err(fault) => return self.say(&fault.to_string()),
        };
        match &line.item {
            None if line.comment.is_none() => Ok(()),
            None => {
                self.keep(line);
                Ok(())
            }
            Some(Item::Machine(..) | Item::Cause(..)) => {
                self.keep(line);
                self.say("noted")?;
                self.status()
            }
            Some(item) => {
                let is_journal = matches!(item, Item::Journal(_));
                if !self.attempt(vec![line], false)? && is_journal {
                    // another length may be given
                    self.reader = reader_after(&self.report);
                }
                Ok(())
            }
        }
    }

    fn keep(&mut self, line: Line) {
        self.changed = true;
        self.report.text.push(line, &self.reader);
    }

    /// Takes so many commands back.
    pub fn undo(&mut self, times: &str) -> io::Result<()> {
        let Some(times) = self.times(times)? else {
            return Ok(());
        };
        let applied = self.report.outcome().applied().len();
        if times > 1 && times > applied {
            let commands = counted(applied, "command");
            return self.say(&format!("only {commands} in force; nothing has changed"));
        }
        let undo = Line::from(Item::Command(Command::Undo));
        self.attempt(vec![undo; times], false).map(|_| ())
    }

    /// Does so many commands again.
    pub fn redo(&mut self, times: &str) -> io::Result<()> {
        let Some(times) = self.times(times)? else {
            return Ok(());
        };
        let undone = self.report.session.undone().take(times).cloned();
        let lines: Vec<Line> = undone
            .map(|command| Line::from(Item::Command(command)))
            .collect();
        match lines.len() {
            0 => self.say("nothing to do again; nothing has changed"),
            found if found < times => {
                let commands = counted(found, "command");
                self.say(&format!("only {commands} taken back; nothing has changed"))
            }
            _ => self.attempt(lines, true).map(|_| ()),
        }
    }

    /// How often something is to be done, or that it cannot be.
    fn times(&mut self, word: &str) -> io::Result<Option<usize>> {
        let times = word
            .parse()
            .ok()
            .filter(|times| (1..=1_000_000).contains(times));
        if times.is_none() {
            self.say(&format!(
                "expected a whole number from 1 to 1000000, not `{word}`"
            ))?;
        }
        Ok(times)
    }

    /// Adds lines to the session, and keeps them if nothing is refused then.
    fn attempt(&mut self, lines: Vec<Line>, again: bool) -> io::Result<bool> {
        let known = self.report.given();
        if let Err(refused) = self.report.add(lines, &self.reader) {
            let advice = advice(&refused);
            self.say(&format!("{refused}; nothing has changed{advice}"))?;
            return Ok(false);
        }
        self.changed = true;
        let answers = shown::answers(&self.report, known, again);
        self.say(&answers)?;
        self.status()?;
        Ok(true)
    }
}

/// A reader of what is typed behind a session.
fn reader_after(report: &Report) -> Reader {
    Reader::after(&report.text, Source::named("typed").in_folder(""))
}

/// What can be done about a refusal, where it is not plain.
fn advice(refused: &str) -> &'static str {
    let exhausted = format!("refused by {}:", Refusal::StreamExhausted.number());
    if refused.starts_with(&exhausted) {
        ". `thresholds` and some numbers add more"
    } else {
        ""
    }
}
