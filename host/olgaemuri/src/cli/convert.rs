//! `olgaemuri convert`: sessions from text to bytes and back.

use super::arguments::{Arguments, Known};
use super::files::{called, load, read, same_file, same_folder, source, write_by, write_bytes_by};
use super::{Failure, help};
use olgaemuri::{Session, SessionText};

pub const OPTIONS: [Known; 3] = [
    Known::valued("--from"),
    Known::valued("--to"),
    Known::flag("--help"),
];

#[derive(Clone, Copy, Debug, PartialEq)]
enum Form {
    Text,
    Bytes,
    /// The commands alone.
    Bare,
}

fn form(name: &str) -> Result<Form, Failure> {
    match name {
        "text" => Ok(Form::Text),
        "bytes" => Ok(Form::Bytes),
        "bare" => Ok(Form::Bare),
        _ => Err(Failure::usage(
            &format!("expected text, bytes or bare, not `{name}`"),
            help::CONVERT,
        )),
    }
}

pub fn convert(arguments: &Arguments) -> Result<u8, Failure> {
    let (input, output) = match arguments.files.as_slice() {
        [input] => (input.as_str(), "-"),
        [input, output] => (input.as_str(), output.as_str()),
        _ => {
            return Err(Failure::usage(
                "`olgaemuri convert` takes INPUT and perhaps OUTPUT",
                help::CONVERT,
            ));
        }
    };
    let Some(to) = arguments.value("--to") else {
        return Err(Failure::usage(
            "`olgaemuri convert` needs `--to text`, `--to bytes` or `--to bare`",
            help::CONVERT,
        ));
    };
    let to = form(to)?;
    if to != Form::Text && same_file(input, output) {
        return Err(Failure::usage(
            "OUTPUT is INPUT, whose comments and names would be lost",
            help::CONVERT,
        ));
    }
    let from = arguments.value("--from").map(form).transpose()?;
    let mut session = session(input, from)?;
    if !same_folder(input, output) {
        session = session.self_contained();
    }
    match to {
        Form::Text => write_by(output, |out| write!(out, "{session}"))?,
        Form::Bytes => write_bytes_by(output, |out| out.write_all(&session.session().to_bytes()))?,
        Form::Bare => write_bytes_by(output, |out| out.write_all(&session.commands()))?,
    }
    Ok(0)
}

/// Reads the input in the form given, or else in the one that it begins like.
fn session(input: &str, from: Option<Form>) -> Result<SessionText, String> {
    let Some(from) = from else {
        return load(input);
    };
    let bytes = read(input)?;
    match from {
        Form::Text => SessionText::parse(&bytes, &source(input)).map_err(|error| error.to_string()),
        Form::Bytes => Session::from_bytes(&bytes)
            .map(|session| SessionText::from(&session))
            .map_err(|error| format!("{}: {error}", called(input))),
        Form::Bare => {
            let mut session = Session::default();
            session.push_raw(&bytes);
            Ok(SessionText::from(&session))
        }
    }
}
