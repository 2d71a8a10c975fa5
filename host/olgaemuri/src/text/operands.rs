//! The operands `name=value` of a command: each known, each at most once, taken one by one.

use super::fault::Misplaced;
use super::line::ByName;
use super::names::{Named, Names};
use super::number::{parse_float, parse_whole};
use super::suggest::{hint, hint_or};
use super::words::{Word, Words};
use std::fmt::Display;
use std::str::FromStr;

/// The operands that have not been taken yet.
pub(crate) struct Operands<'a> {
    pairs: Vec<(Word, Word)>,
    /// Where an operand that is missing would stand.
    end: usize,
    command: String,
    names: &'a Names,
    /// Which operands taken so far were names.
    pub by_name: ByName,
}

/// Puts a message to the word that it speaks of.
fn at<T>(word: &Word, value: Result<T, String>) -> Result<T, Misplaced> {
    value.map_err(|message| Misplaced::new(word.column, message))
}

impl<'a> Operands<'a> {
    /// Splits the words after the command into operands, all of them among the known ones.
    pub fn new(words: &Words, known: &[&str], names: &'a Names) -> Result<Self, Misplaced> {
        let command = words.words[0].text.clone();
        let mut pairs: Vec<(Word, Word)> = Vec::new();
        for word in &words.words[1..] {
            let (name, value) = word.operand()?;
            check_name(&name, &command, known, &pairs)?;
            pairs.push((name, value));
        }
        let end = words.end;
        Ok(Self {
            pairs,
            end,
            command,
            names,
            by_name: ByName::default(),
        })
    }

    /// Takes an operand that may be missing.
    pub fn optional(&mut self, name: &str) -> Option<Word> {
        let place = self.pairs.iter().position(|pair| pair.0.text == name)?;
        Some(self.pairs.remove(place).1)
    }

    /// Takes an operand that must be there.
    pub fn required(&mut self, name: &str) -> Result<Word, Misplaced> {
        let message = format!("`{}` needs an operand `{name}=`", self.command);
        let end = self.end;
        self.optional(name)
            .ok_or_else(|| Misplaced::new(end, message))
    }

    pub fn float(&mut self, name: &str) -> Result<f64, Misplaced> {
        let word = self.required(name)?;
        at(&word, parse_float(&word.text))
    }

    /// A float that may be missing.
    pub fn optional_float(&mut self, name: &str) -> Result<Option<f64>, Misplaced> {
        match self.optional(name) {
            Some(word) => at(&word, parse_float(&word.text)).map(Some),
            None => Ok(None),
        }
    }

    /// A whole number of the type's range, 0 where it is missing.
    pub fn whole<T>(&mut self, name: &str, least: T, most: T) -> Result<T, Misplaced>
    where
        T: FromStr + Display + PartialOrd + Default,
    {
        match self.optional(name) {
            Some(word) => at(&word, parse_whole(&word.text, least, most)),
            None => Ok(T::default()),
        }
    }

    /// One of several words, by its place among them.
    pub fn choice(&mut self, name: &str, choices: &[&str]) -> Result<usize, Misplaced> {
        let word = self.required(name)?;
        choice(&word, choices)
    }

    /// The same, 0 where it is missing.
    pub fn optional_choice(&mut self, name: &str, choices: &[&str]) -> Result<usize, Misplaced> {
        self.optional(name)
            .map_or(Ok(0), |word| choice(&word, choices))
    }

    pub fn machine(&mut self) -> Result<u8, Misplaced> {
        let number = self.named(Named::Machine, u32::from(u8::MAX))?;
        Ok(number as u8)
    }

    pub fn cause(&mut self) -> Result<u32, Misplaced> {
        self.named(Named::Cause, u32::MAX)
    }

    /// A number up to the last, or a name that was given to one.
    fn named(&mut self, named: Named, last: u32) -> Result<u32, Misplaced> {
        let word = self.required(named.word())?;
        if !word.is_quoted() {
            let hint = if word.text.starts_with(char::is_alphabetic) {
                "; a name is written in quotes"
            } else {
                ""
            };
            let number = parse_whole(&word.text, 0, last);
            return at(&word, number.map_err(|message| message + hint));
        }
        let name = word.name()?;
        match named {
            Named::Machine => self.by_name.machine = true,
            Named::Cause => self.by_name.cause = true,
        }
        self.names.number(named, &name).ok_or_else(|| {
            let hint = hint(&name, &self.names.to_compare(named));
            Misplaced::new(
                word.column,
                format!("no {} is named `{name}` above{hint}", named.word()),
            )
        })
    }

    /// Nothing may be left that does not go with `what`.
    pub fn finish(&self, what: &str) -> Result<(), Misplaced> {
        match self.pairs.first() {
            Some((name, _)) => {
                let message = format!("`{}=` does not go with {what}", name.text);
                Err(Misplaced::new(name.column, message))
            }
            None => Ok(()),
        }
    }
}

fn check_name(
    name: &Word,
    command: &str,
    known: &[&str],
    before: &[(Word, Word)],
) -> Result<(), Misplaced> {
    let text = &name.text;
    if !known.contains(&text.as_str()) {
        let all = if known.is_empty() {
            "none".to_string()
        } else {
            known.join(", ")
        };
        let hint = hint_or(text, known, &format!("; `{command}` takes {all}"));
        let message = format!("unknown operand `{text}`{hint}");
        return Err(Misplaced::new(name.column, message));
    }
    if before.iter().any(|pair| pair.0.text == *text) {
        return Err(Misplaced::new(
            name.column,
            format!("`{text}=` stands twice"),
        ));
    }
    Ok(())
}

fn choice(word: &Word, choices: &[&str]) -> Result<usize, Misplaced> {
    let place = choices.iter().position(|choice| *choice == word.text);
    place.ok_or_else(|| {
        let hint = hint(&word.text, choices);
        let message = format!(
            "expected {}, not `{}`{hint}",
            choices.join(" or "),
            word.text
        );
        Misplaced::new(word.column, message)
    })
}

#[cfg(test)]
mod tests {
    use super::super::words::split;
    use super::*;

    const KNOWN: [&str; 3] = ["machine", "now", "tie"];

    fn fault(line: &str) -> Misplaced {
        let names = Names::default();
        let words = split(line).unwrap();
        let taken = Operands::new(&words, &KNOWN, &names).and_then(|mut operands| {
            operands.machine()?;
            operands.float("now")?;
            operands.optional_choice("tie", &["lowest", "highest"])?;
            operands.finish("this")
        });
        taken.unwrap_err()
    }

    #[test]
    fn faults_have_their_columns() {
        let cases = [
            ("pause machine=1", 16, "`pause` needs an operand `now=`"),
            (
                "pause machin=1 now=2",
                7,
                "unknown operand `machin`; did you mean `machine`?",
            ),
            (
                "pause machine=1 now=2 zz=1",
                23,
                "unknown operand `zz`; `pause` takes machine, now, tie",
            ),
            ("pause machine=1 now=2 now=3", 23, "`now=` stands twice"),
            (
                "pause machine=1 now",
                17,
                "expected an operand name=value, not `now`",
            ),
            (
                "pause machine=1 now=2 tie=lowst",
                27,
                "expected lowest or highest, not `lowst`; did you mean `lowest`?",
            ),
        ];
        for (line, column, message) in cases {
            assert_eq!(fault(line), Misplaced::new(column, message));
        }
    }
}
