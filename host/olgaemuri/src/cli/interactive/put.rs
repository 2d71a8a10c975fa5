//! The words `save` and `picture`: what is typed goes to a file.

use super::typed::Typed;
use crate::cli::files::write_by;
use crate::cli::svg::write_picture;
use std::io;
use std::path::Path;

impl Typed<'_> {
    /// Does `save` or `picture`, behind which this is typed.
    pub fn put(&mut self, word: &str, rest: &str) -> io::Result<()> {
        let (file, overwrite) = match file_name(rest) {
            Ok(found) => found,
            Err(message) => return self.say(message),
        };
        let is_session = word == "save";
        // what is only shown is not kept
        if !self.written_to(word, file, overwrite)? || file == "-" {
            return Ok(());
        }
        self.changed &= !is_session;
        if is_session {
            let file = for_a_shell(file);
            self.say(&format!("saved; `olgaemuri run {file}` runs it again"))
        } else {
            self.say("drawn")
        }
    }

    /// Writes a file for that word, or says why not. What others wrote stays, unless it is to be written over.
    fn written_to(&mut self, word: &str, file: &str, overwrite: bool) -> io::Result<bool> {
        let entry = (word.to_string(), file.to_string());
        if !overwrite && !self.written.contains(&entry) && Path::new(file).exists() {
            self.say(&format!(
                "{file} exists; `{word} {file} overwrite` writes over it"
            ))?;
            return Ok(false);
        }
        let report = &self.report;
        let written = write_by(file, |out| match word {
            "save" => write!(out, "{}", report.text.clone().self_contained()),
            _ => write_picture(report, "olgaemuri", out),
        });
        if let Err(message) = written {
            self.say(&message)?;
            return Ok(false);
        }
        self.written.push(entry);
        Ok(true)
    }
}

/// The file that is named, perhaps in quotes, and whether it may be written over; or what is wrong.
fn file_name(rest: &str) -> Result<(&str, bool), &'static str> {
    let rest = rest.trim();
    let (name, behind) = match rest.strip_prefix('"') {
        Some(quoted) => quoted.split_once('"').ok_or("a closing quote is missing")?,
        None => match rest.strip_suffix("overwrite") {
            Some(name) if name.ends_with(char::is_whitespace) => (name, "overwrite"),
            _ => (rest, ""),
        },
    };
    match (name.trim_end(), behind.trim()) {
        ("", _) => Err("a file's name must follow"),
        (name, "overwrite") => Ok((name, true)),
        (name, "") => Ok((name, false)),
        _ => Err("nothing but `overwrite` may follow the file's name"),
    }
}

/// As it is typed to a shell.
fn for_a_shell(file: &str) -> String {
    let is_plain = |c: char| c.is_alphanumeric() || "_-./".contains(c);
    if file.chars().all(is_plain) {
        file.to_string()
    } else {
        format!("'{}'", file.replace('\'', "'\\''"))
    }
}

#[cfg(test)]
mod tests {
    use super::*;

    #[test]
    fn names_of_files() {
        let cases = [
            (" shop.session", Ok(("shop.session", false))),
            (" my shop.session ", Ok(("my shop.session", false))),
            (" my shop.session  overwrite", Ok(("my shop.session", true))),
            (" \"my shop\" overwrite", Ok(("my shop", true))),
            (" overwrite", Ok(("overwrite", false))),
            (" notoverwrite", Ok(("notoverwrite", false))),
            ("", Err("a file's name must follow")),
            (" \"\"", Err("a file's name must follow")),
            (" \"my shop", Err("a closing quote is missing")),
            (
                " \"my\" shop",
                Err("nothing but `overwrite` may follow the file's name"),
            ),
        ];
        for (rest, expected) in cases {
            assert_eq!(file_name(rest), expected, "{rest}");
        }
    }

    #[test]
    fn names_for_a_shell() {
        assert_eq!(for_a_shell("a/b.session"), "a/b.session");
        assert_eq!(for_a_shell("Bob's shop"), "'Bob'\\''s shop'");
    }
}
