//! Sessions and commands in text and in bytes, as a program meets them.

mod common;

use common::{Random, any_command, likely_session, row_9};
use olgaemuri::text::{Fault, Item, Reader, Source};
use olgaemuri::{BytesError, Command, LoadError, Session, SessionText, TextError};
use std::error::Error;

#[test]
fn sessions_come_back_from_text_and_from_bytes() {
    let mut random = Random(31);
    for _ in 0..300 {
        let session = likely_session(&mut random, 20);
        let text: Session = session.to_string().parse().expect("its own text");
        assert_eq!(text, session);
        assert_eq!(Session::from_bytes(&session.to_bytes()), Ok(session));
    }
}

#[test]
fn commands_come_back_from_their_lines() {
    let mut random = Random(37);
    for _ in 0..5_000 {
        let command = any_command(&mut random);
        let back: Command = command.to_string().parse().expect("its own line");
        // by bytes, since NaN is not equal to itself
        assert_eq!(back.to_bytes(), command.to_bytes(), "{command}");
    }
}

#[test]
fn what_is_no_command() {
    for line in [
        "",
        "# pause",
        "thresholds 1",
        "raw 07",
        "pause machine=0",
        "pause machine=\"press\" now=1",
    ] {
        let fault: Fault = line.parse::<Command>().expect_err(line);
        assert_eq!((fault.line, fault.file.as_str()), (1, "command"), "{line}");
    }
}

#[test]
fn every_failure_is_an_error() {
    let text: TextError = "undo\nundoo\n".parse::<Session>().expect_err("a bad line");
    assert_eq!((text.faults().len(), text.faults()[0].line), (1, 2));
    let bytes: BytesError = Session::from_bytes(b"OLGAEMU").expect_err("cut short");
    let load: LoadError = SessionText::open("no such file").expect_err("no file");
    let errors: [Box<dyn Error + Send + Sync>; 3] =
        [Box::new(text), Box::new(bytes), Box::new(load)];
    let said = errors.map(|error| error.to_string());
    assert!(said[0].starts_with("text:2:1: unknown word `undoo`; did you mean `undo`?\n"));
    assert!(said[1].starts_with("expected a session in bytes"));
    assert!(said[2].starts_with("cannot read no such file: "));
}

#[test]
fn lines_can_be_looked_at() {
    let text =
        "thresholds 2 1  # recorded\nmachine 0 \"press 1\"\npause machine=\"press 1\" now=1\n";
    let session: SessionText = text.parse().expect("a good text");
    assert_eq!(session.lines()[0].comment.as_deref(), Some(" recorded"));
    assert_eq!(
        session.lines()[2].item,
        Some(Item::Command(Command::Pause { clock: 0, now: 1.0 }))
    );
    assert_eq!(session.to_string(), text);
}

#[test]
fn a_line_is_added_with_the_name_that_it_gives() {
    let text = "machine 0 \"press 1\"\ncause 7 \"ram seal\"\nremove machine=\"press 1\" cause=\"ram seal\"\n";
    let mut reader = Reader::new(Source::named("typed"));
    let lines = text.lines().zip(1..);
    let lines: Vec<_> = lines
        .map(|(line, number)| reader.read(line, number).expect(line))
        .collect();
    let mut session = SessionText::default();
    for line in &lines {
        session.push(line.clone(), &reader);
    }
    assert_eq!(session, text.parse().expect("a good text"));
    // a name is not known before its line is there
    let mut session = SessionText::default();
    session.push(lines[1].clone(), &reader);
    session.push(lines[2].clone(), &reader);
    let expected = "cause 7 \"ram seal\"\nremove machine=0 cause=\"ram seal\"\n";
    assert_eq!(session.to_string(), expected);
}

#[test]
fn sessions_go_from_thread_to_thread() {
    fn goes<T: Send + Sync + Clone>(_: &T) {}
    goes(&row_9());
    goes(row_9().run());
    goes(&SessionText::default());
}
