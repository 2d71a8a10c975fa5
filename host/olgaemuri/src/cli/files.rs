//! Reading and writing, with `-` for standard input and output.

use super::terminal::Shown;
use olgaemuri::SessionText;
use olgaemuri::text::Source;
use std::fs::{self, File};
use std::io::{self, BufWriter, IsTerminal, Read, Write};
use std::path::{Path, PathBuf};

pub fn read(file: &str) -> Result<Vec<u8>, String> {
    let bytes = if file == "-" {
        let mut bytes = Vec::new();
        io::stdin().read_to_end(&mut bytes).map(|_| bytes)
    } else {
        fs::read(file)
    };
    bytes.map_err(|error| format!("cannot read {}: {error}", called(file)))
}

/// Writes text to a file or to standard output.
pub fn write(file: &str, text: &[u8]) -> Result<(), String> {
    write_by(file, |out| out.write_all(text))
}

/// What writes something, part after part.
pub trait Parts: FnOnce(&mut dyn Write) -> io::Result<()> {}

impl<T: FnOnce(&mut dyn Write) -> io::Result<()>> Parts for T {}

/// Has text written. A terminal is given nothing to obey; a file or a pipe has every byte as it is.
pub fn write_by(file: &str, parts: impl Parts) -> Result<(), String> {
    match opened(file)? {
        (out, true) => buffered(file, Shown::new(out), parts),
        (out, false) => buffered(file, out, parts),
    }
}

/// Has bytes written that are no text. A terminal is not given them.
pub fn write_bytes_by(file: &str, parts: impl Parts) -> Result<(), String> {
    match opened(file)? {
        (_, true) => Err("bytes are not written to a terminal: name a file, or use a pipe".into()),
        (out, false) => buffered(file, out, parts),
    }
}

/// A file or standard output, and whether it is a terminal.
fn opened(file: &str) -> Result<(Box<dyn Write>, bool), String> {
    if file == "-" {
        let out = io::stdout().lock();
        let is_terminal = out.is_terminal();
        return Ok((Box::new(out), is_terminal));
    }
    let out = File::create(file).map_err(|error| cannot_write(file, &error))?;
    let is_terminal = out.is_terminal();
    Ok((Box::new(out), is_terminal))
}

/// A reader of standard output that has gone away is no failure.
fn buffered(file: &str, out: impl Write, parts: impl Parts) -> Result<(), String> {
    let mut out = BufWriter::with_capacity(1 << 16, out);
    match parts(&mut out).and_then(|()| out.flush()) {
        Err(error) if file == "-" && error.kind() == io::ErrorKind::BrokenPipe => Ok(()),
        written => written.map_err(|error| cannot_write(file, &error)),
    }
}

fn cannot_write(file: &str, error: &io::Error) -> String {
    let place = if file == "-" { "standard output" } else { file };
    format!("cannot write {place}: {error}")
}

/// The session in a file, in text or in bytes.
pub fn load(file: &str) -> Result<SessionText, String> {
    let bytes = read(file)?;
    SessionText::load(&bytes, &source(file)).map_err(|error| error.to_string())
}

/// Where a session comes from; standard input stands in the present folder.
pub fn source(file: &str) -> Source {
    if file == "-" {
        Source::named(called(file)).in_folder("")
    } else {
        Source::file(file)
    }
}

/// Whether the two names lead to one file.
pub fn same_file(one: &str, other: &str) -> bool {
    let path = |file: &str| fs::canonicalize(file).ok().filter(|_| file != "-");
    path(one).is_some_and(|one| path(other) == Some(one))
}

/// Whether a session in the one place finds the files that it names from the other. Where standard output goes is not known.
pub fn same_folder(input: &str, output: &str) -> bool {
    let folder = |file: &str| -> Option<PathBuf> {
        let parent = Path::new(file).parent().filter(|_| file != "-");
        let parent = parent.filter(|parent| !parent.as_os_str().is_empty());
        fs::canonicalize(parent.unwrap_or(Path::new("."))).ok()
    };
    output != "-" && folder(input).is_some_and(|one| folder(output) == Some(one))
}

/// How a file that is read is called in messages.
pub fn called(file: &str) -> &str {
    if file == "-" { "standard input" } else { file }
}
