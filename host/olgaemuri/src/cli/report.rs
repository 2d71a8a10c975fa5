//! A session that was run: each command with its line, its answer and whether it was undone.

use super::events::{Event, events};
use super::wording::refused_words;
use olgaemuri::text::{Item, Line, Names, Reader};
use olgaemuri::{Command, Outcome, Session, SessionText, Step};
use std::sync::OnceLock;

/// One input with its answer. Rows are numbered from 1.
#[derive(Clone, Copy, Debug)]
pub struct Row<'a> {
    pub number: usize,
    pub line: usize,
    pub step: &'a Step,
    /// The row of the UNDO that reverted it.
    pub undone_by: Option<usize>,
    /// The row that it reverted, where it is an accepted UNDO.
    pub undoes: Option<usize>,
}

impl Row<'_> {
    /// The number of the piece in which the breakdown falls that was scheduled or delivered; none without one.
    pub fn piece(&self) -> Option<u8> {
        let answer = &self.step.answer;
        Some(answer.piece).filter(|_| answer.event && !answer.censored)
    }
}

/// What a row has beside its step.
#[derive(Clone, Copy, Debug)]
struct Mark {
    line: usize,
    undone_by: Option<usize>,
    undoes: Option<usize>,
}

pub struct Report {
    /// The text, as far as it is kept.
    pub text: SessionText,
    /// The names, where the text is not kept.
    names: Option<Names>,
    pub session: Session,
    marks: Vec<Mark>,
    /// The rows of the commands in force.
    applied: Vec<usize>,
    events: OnceLock<Vec<Event>>,
}

impl Report {
    /// Runs a session.
    pub fn new(text: SessionText) -> Self {
        let mut report = Self::unmarked(text.session());
        report.text = text;
        report.mark(report.lines_behind(0));
        report
    }

    /// Runs a session to which nothing will be added: the text's lines are not kept.
    pub fn of_run(text: SessionText) -> Self {
        let mut report = Self::unmarked(text.session());
        let lines = text.lines_of(report.session.inputs().iter());
        report.names = Some(text.into_names());
        report.mark(lines);
        report
    }

    fn unmarked(session: Session) -> Self {
        Self {
            session,
            text: SessionText::default(),
            names: None,
            marks: Vec::new(),
            applied: Vec::new(),
            events: OnceLock::new(),
        }
    }

    /// Adds lines to a session in which every command is accepted; or tells why one would be refused then, and adds nothing.
    pub fn add(&mut self, lines: Vec<Line>, reader: &Reader) -> Result<(), String> {
        let is_journal = |line: &Line| matches!(line.item, Some(Item::Journal(_)));
        if lines.iter().any(is_journal) {
            return self.add_journal(lines, reader);
        }
        let (known, length) = (self.given(), self.session.commands().len());
        for thresholds in lines
            .iter()
            .filter_map(|line| line.item.as_ref()?.thresholds())
        {
            self.session.push_thresholds(thresholds);
        }
        let items = lines.iter().filter_map(|line| line.item.as_ref());
        let bytes: Vec<u8> = items.flat_map(Item::bytes).collect();
        self.session.push_raw(&bytes);
        if let Some(refused) = self.outcome().steps[known..].iter().find_map(refused_words) {
            self.session.truncate(length);
            return Err(refused);
        }
        let lines_before = self.text.lines().len();
        for line in lines {
            self.text.push(line, reader);
        }
        self.mark(self.lines_behind(lines_before));
        Ok(())
    }

    /// The same with a line that chooses the journal's length, which earlier commands may exceed: all are run anew.
    fn add_journal(&mut self, lines: Vec<Line>, reader: &Reader) -> Result<(), String> {
        let mut text = self.text.clone();
        for line in lines {
            text.push(line, reader);
        }
        let report = Self::new(text);
        match report.outcome().steps.iter().find_map(refused_words) {
            Some(refused) => Err(refused),
            None => {
                *self = report;
                Ok(())
            }
        }
    }

    /// The lines of the steps that have no mark yet; they begin behind so many lines.
    fn lines_behind(&self, lines_before: usize) -> Vec<usize> {
        let steps = &self.outcome().steps[self.marks.len()..];
        let inputs = steps.iter().map(|step| &step.input);
        self.text.lines_behind(lines_before, inputs)
    }

    /// Marks the steps that have no mark yet, which stand in these lines.
    fn mark(&mut self, lines: Vec<usize>) {
        let steps = &self.session.run().steps[self.marks.len()..];
        for (step, line) in steps.iter().zip(lines) {
            let number = self.marks.len() + 1;
            let mut undoes = None;
            match step.input.command().filter(|_| step.answer.is_accepted()) {
                Some(Command::Undo) => undoes = self.applied.pop(),
                Some(_) => self.applied.push(number),
                None => {}
            }
            if let Some(undone) = undoes {
                self.marks[undone - 1].undone_by = Some(number);
            }
            self.marks.push(Mark {
                line,
                undone_by: None,
                undoes,
            });
        }
        self.events = OnceLock::new();
    }

    /// The events that the commands in force have scheduled.
    pub fn events(&self) -> &[Event] {
        self.events.get_or_init(|| events(self.outcome()))
    }

    pub fn outcome(&self) -> &Outcome {
        self.session.run()
    }

    pub fn names(&self) -> &Names {
        self.names.as_ref().unwrap_or(self.text.names())
    }

    /// How many commands were answered.
    pub fn given(&self) -> usize {
        self.marks.len()
    }

    pub fn rows(&self) -> impl Iterator<Item = Row<'_>> {
        self.rows_behind(0)
    }

    /// The rows behind so many.
    pub fn rows_behind(&self, known: usize) -> impl Iterator<Item = Row<'_>> {
        (known + 1..=self.given()).map(|number| self.row(number))
    }

    /// The row with this number, which is one of them.
    pub fn row(&self, number: usize) -> Row<'_> {
        let mark = self.marks[number - 1];
        Row {
            number,
            line: mark.line,
            step: &self.outcome().steps[number - 1],
            undone_by: mark.undone_by,
            undoes: mark.undoes,
        }
    }

    pub fn accepted(&self) -> usize {
        self.outcome()
            .answers()
            .filter(|answer| answer.is_accepted())
            .count()
    }

    pub fn refused(&self) -> usize {
        self.given() - self.accepted()
    }

    /// How many commands were taken back.
    pub fn undone(&self) -> usize {
        let undone = self.marks.iter().filter(|mark| mark.undone_by.is_some());
        undone.count()
    }

    /// Bytes of the list that the run did not read, having ended before.
    pub fn unread(&self) -> u64 {
        self.session.commands().len() as u64 - self.outcome().bytes_read
    }
}
