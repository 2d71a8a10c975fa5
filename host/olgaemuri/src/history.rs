//! An undo button: steps that are taken back and done again. A step is a command, or the commands of a group.

use crate::command::Command;
use crate::outcome::Step;
use crate::session::Session;
use std::ops::Range;

/// Which parts of the list are groups.
#[derive(Clone, Debug, Default)]
pub(crate) struct Groups {
    /// Groups that are ended, one after another.
    ended: Vec<Range<usize>>,
    /// Where the open group begins.
    begun: usize,
    /// How many groups are open, each in the one before.
    depth: usize,
}

impl Groups {
    fn begin(&mut self, length: usize) {
        if self.depth == 0 {
            self.begun = length;
        }
        self.depth += 1;
    }

    fn end(&mut self, length: usize) {
        if self.depth == 1 && self.begun < length {
            self.ended.push(self.begun..length);
        }
        self.depth = self.depth.saturating_sub(1);
    }

    fn end_all(&mut self, length: usize) {
        self.depth = self.depth.min(1);
        self.end(length);
    }

    /// Leaves out what lies behind this length of the list.
    pub fn truncate(&mut self, length: usize) {
        self.ended.retain(|group| group.start < length);
        if let Some(last) = self.ended.last_mut() {
            last.end = last.end.min(length);
        }
        self.begun = self.begun.min(length);
    }

    /// Where the step begins to which this place of the list belongs.
    fn step_of(&self, place: usize) -> usize {
        if self.depth > 0 && self.begun <= place {
            return self.begun;
        }
        let after = self.ended.partition_point(|group| group.start <= place);
        let group = self.ended[..after].last();
        let group = group.filter(|group| group.contains(&place));
        group.map_or(place, |group| group.start)
    }

    /// The commands at the front whose places belong to one step.
    fn first_step<'a>(&self, placed: impl Iterator<Item = (&'a Step, usize)>) -> Vec<&'a Command> {
        let mut placed = placed.peekable();
        let first = placed.peek().map(|(_, place)| self.step_of(*place));
        let same = placed.take_while(|(_, place)| Some(self.step_of(*place)) == first);
        same.filter_map(|(step, _)| step.input.command()).collect()
    }
}

/// # Undo and redo
///
/// `undo` and `redo` add commands to the list, so that what is undone is what the engine says: UNDO once for each command of the
/// step, or the commands that were undone once more, as a group. What they need to know of the commands so far they find by
/// [`Session::run`].
impl Session {
    /// Begins a group: what is added up to [`Session::end_group`] is undone and redone as one step. A group in a group is part of it.
    pub fn begin_group(&mut self) {
        let length = self.commands().len();
        self.groups().begin(length);
    }

    /// Ends the group that was begun last. Without one nothing happens.
    pub fn end_group(&mut self) {
        let length = self.commands().len();
        self.groups().end(length);
    }

    /// The commands that [`Session::undo`] would take back, in the order in which they were given. None where nothing is applied,
    /// or where the list ends in bytes that are no command, behind which nothing is read.
    #[must_use]
    pub fn next_undo(&self) -> Vec<&Command> {
        let run = self.run();
        let applied = run.applied_last_first().filter(|_| run.end.is_none());
        let mut step = self.group_list().first_step(applied);
        step.reverse();
        step
    }

    /// The commands that [`Session::redo`] would give again, in this order. None where nothing was undone since the last command
    /// that was accepted. (A command equal to the next one that was undone counts as done again, not as another.)
    #[must_use]
    pub fn next_redo(&self) -> Vec<&Command> {
        let run = self.run();
        let undone = run.undone_next_first().filter(|_| run.end.is_none());
        self.group_list().first_step(undone)
    }

    /// The commands that [`Session::redo`] would give again, step after step, in this order.
    pub fn undone(&self) -> impl Iterator<Item = &Command> {
        let run = self.run();
        let undone = run.undone_next_first().filter(|_| run.end.is_none());
        undone.filter_map(|(step, _)| step.input.command())
    }

    /// Whether [`Session::undo`] would take anything back.
    #[must_use]
    pub fn can_undo(&self) -> bool {
        !self.next_undo().is_empty()
    }

    /// Whether [`Session::redo`] would give anything again.
    #[must_use]
    pub fn can_redo(&self) -> bool {
        !self.next_redo().is_empty()
    }

    /// Takes the last step back: every machine gets the events that it would have had without it. An open group is ended first.
    /// Returns whether there was one.
    pub fn undo(&mut self) -> bool {
        self.end_groups();
        let count = self.next_undo().len();
        self.push_group(&Command::Undo.to_bytes().repeat(count));
        count > 0
    }

    /// Gives the step again that was undone last: its answers are the same to the last bit. An open group is ended first.
    /// Returns whether there was one.
    pub fn redo(&mut self) -> bool {
        self.end_groups();
        let step = self.next_redo().into_iter();
        let step: Vec<u8> = step.flat_map(Command::to_bytes).collect();
        self.push_group(&step);
        !step.is_empty()
    }

    fn push_group(&mut self, commands: &[u8]) {
        self.begin_group();
        self.push_raw(commands);
        self.end_group();
    }

    fn end_groups(&mut self) {
        let length = self.commands().len();
        self.groups().end_all(length);
    }
}
