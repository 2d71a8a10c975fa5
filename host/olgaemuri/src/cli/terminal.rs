//! How wide the terminal is, and what it is given.

use olgaemuri::text::visible;
use std::env;
use std::fs::File;
use std::io::{self, IsTerminal, Write, stdout};
use std::process::Command;

/// The columns of the terminal that standard output goes to; none for a file or a pipe, or where nobody knows.
pub fn width() -> Option<usize> {
    if !stdout().is_terminal() {
        return None;
    }
    let columns = env::var("COLUMNS").ok();
    let columns = columns.and_then(|columns| columns.parse().ok());
    columns.or_else(asked).filter(|columns| *columns > 0)
}

/// What the terminal's own settings say, as `stty size` tells them: rows and columns.
fn asked() -> Option<usize> {
    let terminal = File::open("/dev/tty").ok()?;
    let output = Command::new("stty").arg("size").stdin(terminal).output();
    let said = String::from_utf8(output.ok()?.stdout).ok()?;
    said.split_whitespace().nth(1)?.parse().ok()
}

/// Text on its way to a terminal, line after line, without the characters that it would obey.
pub struct Shown<W: Write> {
    out: W,
    /// The line that has not ended yet.
    line: Vec<u8>,
}

impl<W: Write> Shown<W> {
    pub fn new(out: W) -> Self {
        let line = Vec::new();
        Self { out, line }
    }

    fn show(&mut self) -> io::Result<()> {
        let line = std::mem::take(&mut self.line);
        let line = String::from_utf8_lossy(&line);
        self.out.write_all(visible(&line).as_bytes())
    }
}

impl<W: Write> Write for Shown<W> {
    fn write(&mut self, bytes: &[u8]) -> io::Result<usize> {
        for part in bytes.split_inclusive(|byte| *byte == b'\n') {
            self.line.extend_from_slice(part);
            if part.ends_with(b"\n") {
                self.show()?;
            }
        }
        Ok(bytes.len())
    }

    fn flush(&mut self) -> io::Result<()> {
        self.show()?;
        self.out.flush()
    }
}

#[cfg(test)]
mod tests {
    use super::*;

    #[test]
    fn letters_in_two_parts_are_shown_whole() {
        let text = "a\u{1b}[1mé\nプ\u{9b}".as_bytes();
        for place in 0..text.len() {
            let mut out = Shown::new(Vec::new());
            out.write_all(&text[..place]).unwrap();
            out.write_all(&text[place..]).unwrap();
            out.flush().unwrap();
            assert_eq!(String::from_utf8(out.out).unwrap(), "a�[1mé\nプ�");
        }
    }
}
