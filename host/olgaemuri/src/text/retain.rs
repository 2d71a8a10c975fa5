//! A session without some of its commands.

use super::line::{Item, Line};
use super::session::SessionText;
use crate::input::Input;

impl SessionText {
    /// The session with those inputs alone that are to be kept, by their places in the list from 0. Other lines stay where they
    /// are, and so do comments: that of a line that goes becomes a line of its own.
    #[must_use]
    pub fn retain_inputs(&self, mut keep: impl FnMut(usize) -> bool) -> Self {
        let inputs = Input::split(&self.commands());
        let begins = self.lines_of(inputs.iter());
        let mut inputs = inputs.into_iter().zip(begins).enumerate().peekable();
        let mut lines = Vec::new();
        for (line, number) in self.lines().iter().zip(1..) {
            if line.item.as_ref().is_none_or(|item| item.width() == 0) {
                lines.push(line.clone());
                continue;
            }
            let mut kept = Vec::new();
            while let Some((place, (input, _))) = inputs.next_if(|next| next.1.1 == number) {
                kept.extend(keep(place).then(|| Item::from(input)));
            }
            lines.extend(line.with_items(kept));
        }
        Self::new(lines, self.names().clone())
    }
}

impl Line {
    /// These items in place of the line's own, each in a line; the comment stands in the first.
    fn with_items(&self, items: Vec<Item>) -> Vec<Self> {
        let lines = items.into_iter().map(|item| Self {
            item: Some(item),
            comment: None,
            by_name: self.by_name,
        });
        let mut lines: Vec<Self> = lines.collect();
        if lines.is_empty() && self.comment.is_some() {
            lines.push(Self::default());
        }
        if let Some(first) = lines.first_mut() {
            first.comment.clone_from(&self.comment);
        }
        lines
    }
}

#[cfg(test)]
mod tests {
    use super::*;

    #[test]
    fn comments_and_other_lines_stay_in_their_places() {
        let text = "# head\nmachine 2 \"press\"\nundo  # goes\n\npause machine=\"press\" now=1  # stays\n\
            raw 07 08 03 00  # cut\nraw 01000000\ncause 1 \"seal\"\n";
        let text: SessionText = text.parse().unwrap();
        assert_eq!(text.session().inputs().len(), 5);
        let kept = text.retain_inputs(|place| place > 2);
        let expected = "# head\nmachine 2 \"press\"\n# goes\n\n# stays\n\
            undo  # cut\nremove machine=0 cause=1\ncause 1 \"seal\"\n";
        assert_eq!(kept.to_string(), expected);
        assert_eq!(
            text.retain_inputs(|place| place == 1).to_string(),
            "# head\nmachine 2 \"press\"\n# goes\n\npause machine=\"press\" now=1  # stays\n# cut\ncause 1 \"seal\"\n"
        );
    }
}
