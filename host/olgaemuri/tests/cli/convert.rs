//! `olgaemuri convert`: text to bytes to text, and bytes that are no command.

use super::program::{example, olgaemuri, scratch};
use std::fs;

fn convert(words: &[&str], input: &[u8]) -> Vec<u8> {
    let words: Vec<&str> = ["convert", "-"].iter().chain(words).copied().collect();
    let ran = olgaemuri(&words, input);
    assert_eq!((ran.status, ran.err.as_str()), (0, ""), "{words:?}");
    ran.out
}

#[test]
fn the_example_survives() {
    let bytes = convert(&["--to", "bytes"], &example("press-shop.session"));
    let text = convert(&["--to", "text"], &bytes);
    assert_eq!(convert(&["--to", "bytes"], &text), bytes);
    assert_eq!(convert(&["--to", "text"], &text), text);
    assert_eq!(convert(&["--to", "bytes"], &bytes), bytes);
}

#[test]
fn names_and_comments_stay_from_text_to_text() {
    let text = convert(&["--to", "text"], &example("press-shop.session"));
    let text = String::from_utf8(text).unwrap();
    assert!(text.contains("machine 3 \"press brake 2\"\n"));
    assert!(text.contains("# The three edits are taken back.\nundo\nundo\nundo\n"));
    let bytes = |session: &[u8]| convert(&["--to", "bytes"], session);
    assert_eq!(
        bytes(text.as_bytes()),
        bytes(&example("press-shop.session"))
    );
}

#[test]
fn bare_commands() {
    let bytes: &[u8] = &[7, 8, 3, 1, 2, 0, 0, 0, 9, 255];
    let text = convert(&["--from", "bare", "--to", "text"], bytes);
    assert_eq!(
        text,
        b"deliver\nundo\nremove machine=1 cause=2\nraw 09 ff\n"
    );
    assert_eq!(convert(&["--to", "bare"], &text), bytes);
}

#[test]
fn every_single_byte_is_kept() {
    for byte in 0..=255 {
        let text = convert(&["--from", "bare", "--to", "text"], &[byte]);
        assert_eq!(convert(&["--to", "bare"], &text), [byte]);
    }
}

#[test]
fn run_takes_bytes_too() {
    let bytes = convert(&["--to", "bytes"], b"thresholds 1\nundo\nraw ff 07\n");
    let ran = olgaemuri(&["run", "-"], &bytes);
    assert_eq!(ran.status, 0);
    let text = ran.text();
    assert!(
        text.contains("refused by 12") && text.contains("there is no command to undo"),
        "{text}"
    );
    assert!(
        text.contains("refused by 2")
            && text.contains("2 bytes from there on are no whole command"),
        "{text}"
    );
}

#[test]
fn bad_bytes_are_told() {
    let ran = olgaemuri(
        &["convert", "-", "--from", "bytes", "--to", "text"],
        b"OLGAEMU",
    );
    assert_eq!(ran.status, 2);
    assert!(
        ran.err
            .starts_with("standard input: expected a session in bytes")
    );
    assert_eq!(olgaemuri(&["convert", "-"], b"").status, 2);
    assert_eq!(olgaemuri(&["convert", "-", "--to", "xml"], b"").status, 2);
    assert_eq!(olgaemuri(&["convert", "--to", "text"], b"").status, 2);
}

#[test]
fn operands_stay_names_where_they_are_written_so() {
    let text = "machine 2 \"press \\\"2\\\"\"  # the old one\ncause 1 \"seal\"\n\
        remove machine=\"press \\\"2\\\"\" cause=\"seal\"  # by name\nremove machine=2 cause=\"seal\"\n\
        remove machine=2 cause=1  # by number\nraw 09\n";
    let back = convert(&["--to", "text"], text.as_bytes());
    assert_eq!(String::from_utf8(back).unwrap(), text);
}

/// A session that names a file of thresholds beside it, in a folder of its own; and that folder.
fn with_thresholds(folder: &str) -> (String, String) {
    let folder = scratch(folder);
    fs::create_dir_all(folder.join("other")).unwrap();
    fs::write(folder.join("shop.thresholds"), "3 4 # recorded\n").unwrap();
    let session = folder.join("shop.session");
    fs::write(
        &session,
        "thresholds from \"shop.thresholds\"  # kept\nundo\n",
    )
    .unwrap();
    let path = |path: std::path::PathBuf| path.to_str().unwrap().to_string();
    (path(session), path(folder))
}

#[test]
fn thresholds_of_a_file_are_found_from_another_folder() {
    let (session, folder) = with_thresholds("from");
    let copies = [
        (
            "shop-2.session",
            "thresholds from \"shop.thresholds\"  # kept\nundo\n",
        ),
        ("other/shop.session", "thresholds 3 4  # kept\nundo\n"),
    ];
    for (copy, expected) in copies {
        let copy = format!("{folder}/{copy}");
        let ran = olgaemuri(&["convert", "--to", "text", &session, &copy], b"");
        assert_eq!((ran.status, ran.err.as_str()), (0, ""));
        assert_eq!(fs::read_to_string(&copy).unwrap(), expected);
        assert_eq!(olgaemuri(&["run", &copy], b"").status, 0);
    }
    // standard output may go anywhere
    let ran = olgaemuri(&["convert", "--to", "text", &session], b"");
    assert_eq!(ran.text(), copies[1].1);
    fs::remove_dir_all(folder).unwrap();
}

#[test]
fn a_file_of_thresholds_may_begin_with_a_byte_order_mark() {
    let (session, folder) = with_thresholds("mark");
    fs::write(format!("{folder}/shop.thresholds"), "\u{feff}3 4\n").unwrap();
    let ran = olgaemuri(&["run", &session], b"");
    assert_eq!((ran.status, ran.err.as_str()), (0, ""));
    assert!(
        ran.text().contains("Thresholds drawn: 0 of 2."),
        "{}",
        ran.text()
    );
    fs::remove_dir_all(folder).unwrap();
}
