//! Inputs of unusual size, with little memory and in little time.

use super::program::{in_time, scratch, with_memory};

#[test]
fn a_long_journal_takes_no_memory() {
    let session = b"journal 1073741824\ncreate machine=0 policy=retain\nundo\n";
    let ran = with_memory(100, &["run", "-"], session);
    assert_eq!((ran.status, ran.err.as_str()), (0, ""));
    assert!(
        ran.text().contains("2 commands: 2 accepted"),
        "{}",
        ran.text()
    );
}

#[test]
fn a_long_word_is_told_of_shortly() {
    let word = "x".repeat(1_000_000);
    for line in [
        "x".repeat(10_000_000),
        word.clone(),
        format!("pause machine=0 {word}=1"),
        format!("pause machine=0 now={word}"),
        format!("create machine=0 policy={word}"),
        format!("pause machine=\"{word}\" now=1"),
        format!("entity={word}"),
    ] {
        let line = format!("machine 0 \"press\"\n{line}\n");
        let ran = in_time(&["run", "-"], line.as_bytes());
        assert_eq!((ran.status, ran.text()), (2, ""));
        assert!(ran.err.starts_with("standard input:2:"), "{:.100}", ran.err);
        assert!(ran.err.len() < 2_000, "{} bytes", ran.err.len());
        assert_eq!(ran.err.lines().count(), 3);
    }
    let ran = in_time(
        &["interactive"],
        format!("{word}\nhelp {word}\n").as_bytes(),
    );
    assert!(
        ran.status == 0 && ran.out.len() < 2_000,
        "{}",
        ran.out.len()
    );
}

#[test]
fn many_names() {
    let count = 50_000;
    let names: String = (0..count)
        .map(|n| format!("cause {n} \"cause no. {n}\"\n"))
        .collect();
    let used: String = (0..count)
        .map(|n| format!("remove machine=0 cause=\"cause no. {n}\"\n"))
        .collect();
    let words = ["convert", "-", "--to", "bare"];
    let ran = in_time(&words, (names.clone() + &used).as_bytes());
    assert_eq!((ran.status, ran.out.len()), (0, 6 * count));
    let wrong = names + &used.replace("no.", "on.");
    let ran = in_time(&words, wrong.as_bytes());
    assert_eq!(ran.status, 2);
    assert!(ran.err.contains("and 49980 more bad lines"));
}

#[test]
fn many_names_are_typed() {
    let count = 40_000;
    let typed: String = (0..count)
        .map(|n| format!("cause {n} \"cause no. {n}\"\n"))
        .collect();
    let ran = in_time(&["interactive"], typed.as_bytes());
    assert_eq!(ran.text().matches("noted\n").count(), count);
}

/// A long session of one press: mostly edits, with an undo now and then.
fn long_session(commands: usize) -> String {
    let mut text = String::from(
        "machine 0 \"press 1\"\nthresholds 2 1\ncreate machine=0 policy=retain scale=10\n\
        set machine=0 cause=1 now=0 hazard=constant rate=0.5\n",
    );
    for number in (0..commands).step_by(4) {
        let hour = number / 8;
        text += &format!(
            "reschedule machine=0 now={hour}\npause machine=0 now={hour}.25\n\
            remove machine=0 cause=7\nundo\n"
        );
    }
    text
}

#[test]
fn long_sessions_need_little_memory() {
    let session = long_session(80_000);
    let file = scratch("long.session");
    std::fs::write(&file, &session).unwrap();
    for words in [
        &["run", "-"][..],
        &["run", "-", "--csv"],
        &["run", "-", "--json"],
        &["run", "-", "--svg", "-"],
        &["compare", file.to_str().unwrap(), "-"],
        &["convert", "-", "--to", "text"],
    ] {
        let ran = with_memory(50, words, session.as_bytes());
        assert_eq!((ran.status, ran.err.as_str()), (0, ""), "{words:?}");
        let is_list = words[0] != "compare";
        assert!(ran.out.len() > if is_list { 1_000_000 } else { 100 });
    }
    std::fs::remove_file(&file).unwrap();
}

/// Lists whose lines are long, since the machine's name is: they are written as they are made.
#[test]
fn long_lists_are_not_kept() {
    let (events, name) = (1000, "x".repeat(20_000));
    let mut session = format!("machine 0 \"{name}\"\ncreate machine=0 policy=retain\n");
    for hour in 0..events {
        let censor = hour + 1;
        session += &format!("reschedule machine=0 now={hour} censor={censor}\ndeliver\n");
    }
    let file = scratch("named.session");
    std::fs::write(&file, &session).unwrap();
    for words in [
        &["run", "-", "--csv"][..],
        &["run", "-", "--csv=events"],
        &["run", "-", "--csv=breakdowns"],
        &["compare", file.to_str().unwrap(), "-"],
    ] {
        let ran = with_memory(18, words, session.as_bytes());
        assert_eq!((ran.status, ran.err.as_str()), (0, ""), "{words:?}");
        assert!(ran.out.len() >= events * name.len(), "{words:?}");
    }
    std::fs::remove_file(&file).unwrap();
}

/// As text a byte takes three.
#[test]
fn a_long_text_is_not_kept() {
    let bytes = vec![255; 8_000_000];
    let words = ["convert", "-", "--from", "bare", "--to", "text"];
    let ran = with_memory(44, &words, &bytes);
    assert_eq!((ran.status, ran.err.as_str()), (0, ""));
    assert!(ran.out.len() > 3 * bytes.len());
}

/// Empty lines take room where lines are kept, and hardly any elsewhere.
#[test]
fn a_run_keeps_no_lines() {
    let session = long_session(240_000) + &"\n".repeat(280_000);
    let ran = with_memory(91, &["run", "-", "--quiet"], session.as_bytes());
    assert_eq!((ran.status, ran.err.as_str()), (0, ""));
}
