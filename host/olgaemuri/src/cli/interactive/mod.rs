//! `olgaemuri interactive`: commands are typed, answered, taken back and done again. Refused ones are not kept, so every command of
//! the session is accepted.

mod put;
mod shown;
mod typed;

use super::arguments::Arguments;
use super::files::load;
use super::report::Report;
use super::{Failure, SUBCOMMANDS, help, rate};
use olgaemuri::SessionText;
use olgaemuri::text::{cut, hint_or, line_words};
use std::io::{self, BufRead, IsTerminal, Write, stderr, stdin, stdout};
use typed::Typed;

/// The words that are no lines of a session.
const WORDS: [&str; 8] = [
    "redo", "help", "list", "rate", "curve", "save", "picture", "quit",
];

/// Whether to go on.
#[derive(PartialEq)]
enum Next {
    On,
    Quit,
}

pub fn interactive(arguments: &Arguments) -> Result<u8, Failure> {
    let (report, left_out) = match arguments.files.as_slice() {
        [] => (Report::new(SessionText::default()), 0),
        [file] if file != "-" => accepted_part(load(file)?),
        _ => {
            return Err(Failure::usage(
                "`olgaemuri interactive` takes one FILE or none",
                help::INTERACTIVE,
            ));
        }
    };
    let mut out = stdout().lock();
    let mut talk = Talk {
        typed: Typed::new(report, &mut out),
        terminal: stdin().is_terminal(),
        warned: false,
    };
    let ended = talk
        .greet(left_out)
        .and_then(|()| talk.listen(&mut stdin().lock()));
    match ended {
        Ok(None) => Ok(0),
        Ok(Some(unread)) => Err(Failure::from(format!(
            "cannot read standard input: {unread}"
        ))),
        Err(error) if error.kind() == io::ErrorKind::BrokenPipe => Ok(0),
        Err(error) => Err(Failure::from(format!(
            "cannot write standard output: {error}"
        ))),
    }
}

/// The session without the commands that are refused, which change nothing, and how many these are.
fn accepted_part(text: SessionText) -> (Report, usize) {
    let report = Report::new(text);
    let refused = report.refused();
    if refused == 0 {
        return (report, 0);
    }
    let steps = &report.outcome().steps;
    // what the run did not read is left out too
    let step = |place: usize| steps.get(place);
    let is_accepted = |place| step(place).is_some_and(|step| step.answer.is_accepted());
    let accepted = report.text.retain_inputs(is_accepted);
    (Report::new(accepted), refused)
}

/// What is typed, line after line.
struct Talk<'a> {
    typed: Typed<'a>,
    terminal: bool,
    /// Whether the last line was to leave and was answered by a warning.
    warned: bool,
}

impl Talk<'_> {
    fn greet(&mut self, left_out: usize) -> io::Result<()> {
        self.typed
            .say("Type commands; `undo` and `redo`, `help` for help, `quit` to end.")?;
        if left_out > 0 {
            self.typed.say(&format!(
                "refused, and left out: {left_out} of the file's commands"
            ))?;
        }
        self.typed.status()
    }

    /// Reads line after line until `quit` or the end of the input. Returns why a line could not be read, if that is so; an error is
    /// one of writing.
    fn listen(&mut self, input: &mut dyn BufRead) -> io::Result<Option<io::Error>> {
        let mut next = Next::On;
        while next == Next::On {
            if self.terminal {
                write!(self.typed.out, "> ")?;
                self.typed.out.flush()?;
            }
            let mut line = Vec::new();
            next = match input.read_until(b'\n', &mut line) {
                Ok(0) => self.end_of_input()?,
                Ok(_) => self.take(String::from_utf8_lossy(&line).trim_end())?,
                Err(unread) => return Ok(Some(unread)),
            };
        }
        self.typed.out.flush()?;
        Ok(None)
    }

    /// Takes one typed line.
    fn take(&mut self, line: &str) -> io::Result<Next> {
        let words: Vec<&str> = line.split_whitespace().collect();
        if let ["quit" | "exit"] = words.as_slice() {
            return self.quit("type `save FILE`, or `quit` again to leave it");
        }
        self.warned = false;
        let typed = &mut self.typed;
        typed.count += 1;
        match words.as_slice() {
            ["help"] => typed.say(&help::typed())?,
            ["help", word] => help_on(typed, word)?,
            ["list"] => typed.list()?,
            ["rate", asked @ ..] => typed.say(&rate::told(asked))?,
            ["curve", ..] => {
                typed.curve(line.trim_start().strip_prefix("curve").unwrap_or_default())?
            }
            ["undo"] => typed.undo("1")?,
            ["undo", times] if !times.starts_with('#') => typed.undo(times)?,
            ["redo"] => typed.redo("1")?,
            ["redo", times] => typed.redo(times)?,
            [word @ ("save" | "picture"), ..] => {
                let rest = line.trim_start().strip_prefix(word).unwrap_or_default();
                typed.put(word, rest)?;
            }
            [word @ ("list" | "quit" | "exit" | "help" | "redo"), ..] => {
                typed.say(&format!("nothing more may follow `{word}`"))?;
            }
            [word, ..] if !is_known(word) => unknown(typed, word)?,
            _ => typed.read(line)?,
        }
        Ok(Next::On)
    }

    /// Leaves, or warns where something is not saved. From a pipe nobody can answer a warning, so that it is only told.
    fn quit(&mut self, advice: &str) -> io::Result<Next> {
        if !self.typed.changed || self.warned {
            return Ok(Next::Quit);
        }
        if !self.terminal {
            self.typed.out.flush()?;
            // where it cannot be told nobody is there to hear it
            let _ = writeln!(stderr(), "not saved: what was typed is dropped");
            return Ok(Next::Quit);
        }
        self.warned = true;
        self.typed.say(&format!("not saved: {advice}"))?;
        Ok(Next::On)
    }

    /// As `quit`; on a terminal the line with the prompt is ended first.
    fn end_of_input(&mut self) -> io::Result<Next> {
        if self.terminal {
            self.typed.say("")?;
        }
        self.quit("type `save FILE`, or end the input again to leave it")
    }
}

fn unknown(typed: &mut Typed, word: &str) -> io::Result<()> {
    if word == "olgaemuri" || SUBCOMMANDS.contains(&word) {
        return typed.say(&format!(
            "`{word}` is a word for the shell, to which `quit` leads back"
        ));
    }
    let known: Vec<&str> = known_words().collect();
    let hint = hint_or(word, &known, "; `help` tells what can be typed");
    typed.say(&format!("unknown word `{}`{hint}", cut(word, 60)))
}

fn help_on(typed: &mut Typed, word: &str) -> io::Result<()> {
    match help::lines_on(word, &[help::INTERACTIVE, help::FORMAT]) {
        lines if lines.is_empty() => match help::topic(word) {
            Some(text) => typed.say(text.trim_end_matches('\n')),
            None => unknown(typed, word),
        },
        lines => typed.say(lines.trim_end_matches('\n')),
    }
}

fn known_words() -> impl Iterator<Item = &'static str> {
    line_words().chain(WORDS)
}

fn is_known(word: &str) -> bool {
    word.starts_with('#') || known_words().any(|known| known == word)
}
