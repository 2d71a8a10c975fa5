//! A line split into words, quoted names and a comment.

use super::fault::Misplaced;

/// A word as it is written, quotes included.
#[derive(Clone, Debug, PartialEq)]
pub(crate) struct Word {
    pub text: String,
    pub column: usize,
}

/// The words of a line, its comment without the `#`, and the column after the last word.
#[derive(Clone, Debug, Default, PartialEq)]
pub(crate) struct Words {
    pub words: Vec<Word>,
    pub comment: Option<String>,
    pub end: usize,
}

/// Where the splitter stands.
enum Place {
    Between,
    Word,
    /// In quotes that began in this column; whether the last character was a backslash.
    Quotes(usize, bool),
}

impl Word {
    /// The two sides of `name=value`, or what was expected.
    pub fn operand(&self) -> Result<(Word, Word), Misplaced> {
        match self.text.split_once('=') {
            Some((name, value)) if !name.is_empty() => {
                let column = self.column + name.chars().count() + 1;
                let name = Word {
                    text: name.to_string(),
                    column: self.column,
                };
                Ok((
                    name,
                    Word {
                        text: value.to_string(),
                        column,
                    },
                ))
            }
            _ => {
                let message = format!("expected an operand name=value, not `{}`", self.text);
                Err(Misplaced::new(self.column, message))
            }
        }
    }

    pub fn is_quoted(&self) -> bool {
        self.text.starts_with('"')
    }

    /// What stands between quotes, or that such a thing was expected.
    pub fn unquoted(&self, expected: &str) -> Result<String, Misplaced> {
        let inner = self
            .text
            .strip_prefix('"')
            .and_then(|text| text.strip_suffix('"'));
        let text = inner.and_then(unescape).filter(|text| !text.is_empty());
        text.ok_or_else(|| {
            let message = format!("expected {expected}, not `{}`", self.text);
            Misplaced::new(self.column, message)
        })
    }

    /// The name of a machine or a cause.
    pub fn name(&self) -> Result<String, Misplaced> {
        self.unquoted("a name in quotes, such as \"press 1\"")
    }
}

/// The text between quotes; nothing where a quote stands alone or a backslash before something else.
fn unescape(inner: &str) -> Option<String> {
    let mut name = String::new();
    let mut characters = inner.chars();
    while let Some(c) = characters.next() {
        let meant = match c {
            '\\' => characters.next().filter(|c| "\"\\".contains(*c)),
            '"' => None,
            c => Some(c),
        };
        name.push(meant?);
    }
    Some(name)
}

/// A name in quotes.
pub(crate) fn quoted(name: &str) -> String {
    format!("\"{}\"", name.replace('\\', "\\\\").replace('"', "\\\""))
}

/// Splits a line. Quotes that are not closed are the only thing that can be wrong here.
pub(crate) fn split(line: &str) -> Result<Words, Misplaced> {
    let mut split = Words::default();
    let mut place = Place::Between;
    for (before, (index, c)) in line.char_indices().enumerate() {
        if c == '#' && !matches!(place, Place::Quotes(..)) {
            split.comment = Some(line[index + 1..].trim_end().to_string());
            break;
        }
        place = split.take(place, c, before + 1);
    }
    if let Place::Quotes(column, _) = place {
        return Err(Misplaced::new(
            column,
            "expected a closing quote before the end of the line",
        ));
    }
    split.end = split
        .words
        .last()
        .map_or(1, |w| w.column + w.text.chars().count());
    Ok(split)
}

impl Words {
    /// Takes one character, and says where the splitter stands after it.
    fn take(&mut self, place: Place, c: char, column: usize) -> Place {
        let quotes = matches!(place, Place::Quotes(..));
        if c.is_whitespace() && !quotes {
            return Place::Between;
        }
        if matches!(place, Place::Between) {
            self.words.push(Word {
                text: String::new(),
                column,
            });
        }
        if let Some(word) = self.words.last_mut() {
            word.text.push(c);
        }
        match place {
            Place::Quotes(from, true) => Place::Quotes(from, false),
            Place::Quotes(_, false) if c == '"' => Place::Word,
            Place::Quotes(from, false) => Place::Quotes(from, c == '\\'),
            _ if c == '"' => Place::Quotes(column, false),
            _ => Place::Word,
        }
    }
}

#[cfg(test)]
mod tests {
    use super::*;

    fn texts(line: &str) -> Vec<(String, usize)> {
        let split = split(line).unwrap();
        split
            .words
            .into_iter()
            .map(|w| (w.text, w.column))
            .collect()
    }

    #[test]
    fn words_have_columns() {
        let expected = [("set", 1), ("now=1", 6), ("é=2", 12)];
        let found = texts("set  now=1 \té=2  # rest");
        let found: Vec<(&str, usize)> = found.iter().map(|(t, c)| (t.as_str(), *c)).collect();
        assert_eq!(found[0..2], expected[0..2]);
        assert_eq!(found[2], ("é=2", 13));
    }

    #[test]
    fn quotes_hold_spaces_and_hashes() {
        let line = "machine 3 \"press # \\\"2\\\"\" # named";
        let split = split(line).unwrap();
        assert_eq!(split.words[2].name().unwrap(), "press # \"2\"");
        assert_eq!(split.comment.as_deref(), Some(" named"));
        assert_eq!(quoted("press # \"2\""), split.words[2].text);
    }

    #[test]
    fn open_quotes_are_found() {
        let fault = split("cause 1 \"ram").unwrap_err();
        assert_eq!(fault.column, 9);
    }
}
