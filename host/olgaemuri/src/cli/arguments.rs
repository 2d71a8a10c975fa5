//! Words of the command line, parted into options and files.

use olgaemuri::text::hint;

/// An option of a subcommand.
#[derive(Clone, Copy)]
pub struct Known {
    name: &'static str,
    takes: Takes,
}

/// Whether a value follows an option.
#[derive(Clone, Copy, PartialEq)]
enum Takes {
    Nothing,
    Value,
    /// A value behind `=`, or none.
    Perhaps,
}

impl Known {
    /// An option without a value.
    pub const fn flag(name: &'static str) -> Self {
        let takes = Takes::Nothing;
        Self { name, takes }
    }

    /// An option with a value.
    pub const fn valued(name: &'static str) -> Self {
        let takes = Takes::Value;
        Self { name, takes }
    }

    /// An option that may have a value behind `=`.
    pub const fn perhaps_valued(name: &'static str) -> Self {
        let takes = Takes::Perhaps;
        Self { name, takes }
    }
}

#[derive(Debug, Default, PartialEq)]
pub struct Arguments {
    pub files: Vec<String>,
    options: Vec<(&'static str, String)>,
}

impl Arguments {
    /// Reads the words, or says what is wrong with them. `-` is a file, a negative number is no option, `--` ends the options.
    pub fn parse(words: &[String], known: &[Known]) -> Result<Self, String> {
        let mut arguments = Self::default();
        let mut words = words.iter();
        while let Some(word) = words.next() {
            if word == "--" {
                arguments.files.extend(words.by_ref().cloned());
            } else if is_option(word) {
                arguments.option(word, known, &mut words)?;
            } else {
                arguments.files.push(word.clone());
            }
        }
        Ok(arguments)
    }

    fn option<'a>(
        &mut self,
        word: &str,
        known: &[Known],
        words: &mut impl Iterator<Item = &'a String>,
    ) -> Result<(), String> {
        let (name, value) = match word.split_once('=') {
            Some((name, value)) => (name, Some(value.to_string())),
            None => (word, None),
        };
        let Some(option) = known.iter().find(|option| option.name == name) else {
            let names: Vec<&str> = known.iter().map(|option| option.name).collect();
            return Err(format!("unknown option `{name}`{}", hint(name, &names)));
        };
        let value = match (option.takes, value) {
            (Takes::Value | Takes::Perhaps, Some(value)) => value,
            (Takes::Value, None) => words
                .next()
                .cloned()
                .ok_or(format!("a value must follow `{name}`"))?,
            (Takes::Nothing | Takes::Perhaps, None) => String::new(),
            (Takes::Nothing, Some(_)) => return Err(format!("`{name}` takes no value")),
        };
        if self.value(option.name).is_some() {
            return Err(format!("`{name}` stands twice"));
        }
        self.options.push((option.name, value));
        Ok(())
    }

    pub fn value(&self, name: &str) -> Option<&str> {
        let found = self.options.iter().find(|option| option.0 == name);
        found.map(|option| option.1.as_str())
    }

    pub fn has(&self, name: &str) -> bool {
        self.value(name).is_some()
    }
}

/// Whether the word begins like an option and not like a negative number.
fn is_option(word: &str) -> bool {
    let numeric = |rest: &str| rest.starts_with(|c: char| c.is_ascii_digit() || c == '.');
    let rest = word.strip_prefix('-').filter(|rest| !rest.is_empty());
    rest.is_some_and(|rest| rest != "inf" && !numeric(rest))
}

#[cfg(test)]
mod tests {
    use super::*;

    const KNOWN: [Known; 3] = [
        Known::flag("--json"),
        Known::valued("--svg"),
        Known::perhaps_valued("--csv"),
    ];

    fn parse(words: &str) -> Result<Arguments, String> {
        let words: Vec<String> = words.split_whitespace().map(str::to_string).collect();
        Arguments::parse(&words, &KNOWN)
    }

    #[test]
    fn options_and_files() {
        let arguments = parse("a --svg out --csv - -- --b").unwrap();
        assert_eq!(arguments.files, ["a", "-", "--b"]);
        assert_eq!(arguments.value("--svg"), Some("out"));
        assert!(arguments.has("--csv"));
        assert_eq!(arguments.value("--csv"), Some(""));
        assert_eq!(parse("--svg=x").unwrap().value("--svg"), Some("x"));
        assert_eq!(parse("--csv=x").unwrap().value("--csv"), Some("x"));
    }

    #[test]
    fn negative_numbers_are_no_options() {
        let numbers = ["-1", "-.5", "-0", "-1e-3", "-inf", "-1x"];
        let arguments = parse(&format!("--json {}", numbers.join(" "))).unwrap();
        assert_eq!(arguments.files, numbers);
        assert!(arguments.has("--json"));
        for word in ["-x", "-e1", "-info", "--1", "-=1"] {
            let told = parse(word).unwrap_err();
            assert!(told.starts_with("unknown option `-"), "{word}: {told}");
        }
    }

    #[test]
    fn wrong_words() {
        assert_eq!(
            parse("--cvs").unwrap_err(),
            "unknown option `--cvs`; did you mean `--csv`?"
        );
        assert_eq!(parse("--svg").unwrap_err(), "a value must follow `--svg`");
        assert_eq!(parse("--json=1").unwrap_err(), "`--json` takes no value");
        assert_eq!(parse("--csv --csv").unwrap_err(), "`--csv` stands twice");
    }
}
