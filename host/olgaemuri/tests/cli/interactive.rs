//! The interactive mode, with its input from a pipe.

use super::program::{olgaemuri, scratch};
use std::fs;

pub fn typed(words: &[&str], input: &str) -> String {
    let words: Vec<&str> = ["interactive"].iter().chain(words).copied().collect();
    let ran = olgaemuri(&words, input.as_bytes());
    assert_eq!(ran.status, 0);
    assert!(["", NOT_SAVED].contains(&ran.err.as_str()), "{}", ran.err);
    ran.text().to_string()
}

/// What is said on standard error where the input ends, or `quit` comes, before what was typed is saved.
const NOT_SAVED: &str = "not saved: what was typed is dropped\n";

pub const PRESS: &str = "thresholds 2 1
machine 0 \"press 1\"
cause 1 \"ram seal\"
create machine=0 policy=retain scale=10
set machine=0 cause=1 now=0 hazard=constant rate=0.5
reschedule machine=0 now=0
";

#[test]
fn an_edit_is_made_and_taken_back() {
    let out = typed(
        &[],
        &format!("{PRESS}pause machine=0 now=1\nundo\nlist\nquit\n"),
    );
    assert_eq!(out, TAKEN_BACK);
}

/// A punch whose event falls in the piece after the last end.
const PUNCH: &str = "thresholds 2.5 1\nmachine 0 \"punch 1\"\ncause 1 \"tool break\"\n\
    create machine=0 policy=retain scale=10\n\
    set machine=0 cause=1 now=0 hazard=piecewise pieces=2:1,5:0 then=0.5\nreschedule machine=0 now=0\n";

/// The sentence tells the piece and its rate, and `list` has its number.
#[test]
fn pieces_are_told() {
    let out = typed(&[], &format!("{PUNCH}list\ndeliver\nundo\nredo\n"));
    let (told, piece) = (
        "a breakdown of punch 1 by tool break",
        "at tick 60, in piece 2 (rate 0.5 from 5 on)",
    );
    for line in [
        format!("\nscheduled: {told}, in 6, {piece}\n"),
        format!("\ndelivered: {told}, 6 after it was scheduled, {piece}\n"),
        format!("\ndone again: deliver; delivered: {told}, 6 after it was scheduled, {piece}\n"),
        "\n 1  punch 1  tool break      2   6    60  scheduled\n".to_string(),
    ] {
        assert!(out.contains(&line), "{line}\n{out}");
    }
    let paused = format!("{PUNCH}pause machine=0 now=1\nresume machine=0 now=3\n");
    let out = typed(&[], &paused);
    let piece = "in 1.5, at tick 45, in piece 0 (rate 1 from 0 to 2)\n";
    assert!(out.contains(piece), "{out}");
}

#[test]
fn curves_are_shown() {
    let out = typed(&[], &format!("{PUNCH}curve \"punch 1\" 1 # all of it\n"));
    for line in [
        "\npunch 1: tool break. 1 breakdown: 0 delivered, 1 scheduled.\n",
        "\n    2     5  on   0.5           1\n",
    ] {
        assert!(out.contains(line), "{line}\n{out}");
    }
    let two = "`curve` takes a machine and a cause; names with spaces stand in quotes";
    for (line, told) in [
        ("curve", two),
        ("curve punch 1 1", two),
        (
            "curve 3 1",
            "no machine with a cause `3` in the session; there is punch 1",
        ),
        (
            "curve 0 \"tool brake\"",
            "no cause `tool brake` in punch 1; did you mean `tool break`?",
        ),
    ] {
        let out = typed(&[], &format!("{PUNCH}{line}\n"));
        assert!(out.ends_with(&format!("{told}\n")), "{line}\n{out}");
    }
}

const TAKEN_BACK: &str = "Type commands; `undo` and `redo`, `help` for help, `quit` to end.
  in force: 0; scheduled: nothing; thresholds drawn: 0 of 0
noted
  in force: 0; scheduled: nothing; thresholds drawn: 0 of 2
noted
  in force: 0; scheduled: nothing; thresholds drawn: 0 of 2
noted
  in force: 0; scheduled: nothing; thresholds drawn: 0 of 2
done
  in force: 1; scheduled: nothing; thresholds drawn: 0 of 2
done
  in force: 2; scheduled: nothing; thresholds drawn: 1 of 2
scheduled: a breakdown of press 1 by ram seal, in 4, at tick 40
  in force: 3; scheduled: press 1 by ram seal at tick 40; thresholds drawn: 1 of 2
the breakdown scheduled before is withdrawn
  in force: 4; scheduled: nothing; thresholds drawn: 1 of 2
took back: pause machine=0 now=1
  in force: 3; scheduled: press 1 by ram seal at tick 40; thresholds drawn: 1 of 2
no  command in force
--  ---------------------------------------------------------------
 1  create machine=0 process=0 policy=retain tie=lowest scale=10
 2  set machine=0 cause=1 priority=0 now=0 hazard=constant rate=0.5
 3  reschedule machine=0 now=0 priority=0

Scheduled, in the order of delivery:

no  machine  cause     at  tick  state
--  -------  --------  --  ----  ---------
 1  press 1  ram seal   4    40  scheduled

Thresholds drawn: 1 of 2
";

#[test]
fn what_is_refused_changes_nothing_and_is_not_kept() {
    let file = scratch("typed.session");
    let path = file.to_str().unwrap();
    let input = format!(
        "set machine=0 cause=1 now=0 hazard=zero\n{PRESS}undo\nundo\nundo\nundo\nsave {path}\nquit\n"
    );
    let out = typed(&[], &input);
    assert!(
        out.contains("refused by 9: the machine has not been created; nothing has changed\n"),
        "{out}"
    );
    assert!(
        out.contains("refused by 12: there is no command to undo; nothing has changed\n"),
        "{out}"
    );
    assert!(out.contains("took back: create machine=0"), "{out}");
    let saved = fs::read_to_string(&file).unwrap();
    fs::remove_file(&file).unwrap();
    assert!(
        saved.starts_with("thresholds 2 1\nmachine 0 \"press 1\"\n"),
        "{saved}"
    );
    assert!(
        saved.ends_with("reschedule machine=0 now=0 priority=0\nundo\nundo\nundo\n"),
        "{saved}"
    );
}

#[test]
fn thresholds_can_be_added_when_they_are_used_up() {
    let set = "set machine=0 cause=3 now=0 hazard=constant rate=1\n";
    let input = format!("create machine=0 policy=retain\n{set}thresholds 7\n{set}");
    let out = typed(&[], &input);
    let told = "all recorded ones are used up; nothing has changed. `thresholds` and some numbers add more\n";
    assert!(out.contains("refused by 15: "), "{out}");
    assert!(out.contains(told), "{out}");
    assert!(
        out.ends_with("  in force: 2; scheduled: nothing; thresholds drawn: 1 of 1\n"),
        "{out}"
    );
}

#[test]
fn a_journal_that_is_too_short_for_what_is_in_force_is_not_kept() {
    let out = typed(&[], &format!("{PRESS}journal 40\njournal 400\n"));
    let refused = "refused by 14: the journal has no room for the command; nothing has changed\n";
    assert!(out.contains(refused), "{out}");
    assert!(
        out.contains(&format!("{refused}noted\n  in force: 3;")),
        "{out}"
    );
}

#[test]
fn a_file_is_taken_up_again() {
    let out = typed(&["examples/press-shop.session"], "undo\n");
    assert!(
        out.contains("\nrefused, and left out: 1 of the file's commands\n"),
        "{out}"
    );
    assert!(
        out.contains("in force: 45; scheduled: press brake 2 by drive belt at tick 8373"),
        "{out}"
    );
    assert!(
        out.contains("took back: resume machine=1 now=117 censor=160 priority=0\n  in force: 44;"),
        "{out}"
    );
}

#[test]
fn what_a_file_gives_counts_for_what_is_typed() {
    let (session, thresholds) = (scratch("first.session"), scratch("first.thresholds"));
    let name = thresholds.file_name().unwrap().to_str().unwrap();
    fs::write(&thresholds, "3 4\n").unwrap();
    fs::write(
        &session,
        format!("\u{feff}journal 50\nthresholds from \"{name}\"\n"),
    )
    .unwrap();
    let saved = scratch("second.session");
    let input = format!("journal 60\nundo\u{fe}\nsave {}\n", saved.display());
    let out = typed(&[session.to_str().unwrap()], &input);
    assert!(
        out.contains("typed:1:1: the journal's length is given already"),
        "{out}"
    );
    let text = fs::read_to_string(&saved).unwrap();
    assert_eq!(text, "journal 50\nthresholds 3 4\n");
    for file in [session, thresholds, saved] {
        fs::remove_file(file).unwrap();
    }
}

#[test]
fn files_are_not_written_over_unasked() {
    let file = scratch("kept.session");
    let path = file.to_str().unwrap();
    fs::write(&file, "# mine\n").unwrap();
    let out = typed(&[], &format!("save {path}\n"));
    assert!(out.contains("exists"), "{out}");
    assert_eq!(fs::read_to_string(&file).unwrap(), "# mine\n");
    typed(
        &[],
        &format!("thresholds 1\nsave {path} overwrite\nthresholds 2\nsave {path}\n"),
    );
    let saved = "thresholds 1\nthresholds 2\n";
    assert_eq!(fs::read_to_string(&file).unwrap(), saved);
    let out = typed(&[], &format!("save {path} overwrite\npicture {path}\n"));
    let told = format!("{path} exists; `picture {path} overwrite` writes over it\n");
    assert!(out.ends_with(&told), "{out}");
    assert_eq!(fs::read_to_string(&file).unwrap(), "");
    typed(&[], &format!("picture {path} overwrite\npicture {path}\n"));
    assert!(fs::read_to_string(&file).unwrap().starts_with("<svg "));
    fs::remove_file(&file).unwrap();
}

#[test]
fn pictures_can_be_drawn() {
    let file = scratch("typed.svg");
    let path = file.to_str().unwrap();
    let out = typed(&[], &format!("{PRESS}picture {path}\n"));
    assert!(out.ends_with("drawn\n"), "{out}");
    let picture = super::xml::parse(&fs::read_to_string(&file).unwrap()).unwrap();
    fs::remove_file(&file).unwrap();
    assert_eq!(picture.with_class("event").len(), 1);
}

#[test]
fn a_rate_can_be_asked_for() {
    let asked = "rate 2 4 # a seal\nrate 1 49\nrate -1 4\nrate 2\nrate 2 x\n";
    let told = typed(&[], &format!("{PRESS}undo\n{asked}redo\nlist\n"));
    for line in [
        "\n0.5\n",
        "\nno rate up to 2^40 gives exactly the wait 49 for the threshold 1 (refusal 24)\n",
        "\nrefused by 23: THRESHOLD must be above 0 and at most 1024, not -1\n",
        "\n`rate` takes THRESHOLD and WAIT\n",
        "\nWAIT: expected a number",
    ] {
        assert!(told.contains(line), "{line}: {told}");
    }
    // the session is as it would be without the questions, and what was taken back can be done again
    let without = typed(&[], &format!("{PRESS}undo\nredo\nlist\n"));
    let (begun, rest) = without.split_once("done again").unwrap();
    assert!(told.starts_with(begun) && told.ends_with(rest), "{told}");
    let help = typed(&[], "help rate\n");
    assert!(help.contains("  rate W T "), "{help}");
}

#[test]
fn wrong_words_and_help() {
    let out = typed(
        &[],
        "lst\nlist it\nundoo\nbanana\nset machine=0 casue=1\nhelp\nhelp pause\nhelp me\nsave\nrun shop.session\nolgaemuri sweep\n",
    );
    for expected in [
        "`run` is a word for the shell, to which `quit` leads back\n",
        "`olgaemuri` is a word for the shell, to which `quit` leads back\n",
        "unknown word `lst`; did you mean `list`?",
        "nothing more may follow `list`",
        "unknown word `undoo`; did you mean `undo`?",
        "unknown word `banana`; `help` tells what can be typed",
        "typed:5:15: unknown operand `casue`; did you mean `cause`?",
        "  undo [N]        takes the last command back, or the last N\n",
        "  reschedule machine=3 now=T [censor=T] [priority=0]",
        "\n  pause machine=3 now=T      withdraws it; what was used up of the thresholds\n",
        "unknown word `me`",
        "a file's name must follow",
    ] {
        assert!(out.contains(expected), "{expected}\n{out}");
    }
}

#[test]
fn help_on_every_word() {
    let words = "create set remove reschedule pause resume deliver undo thresholds journal machine cause raw \
        redo help list save picture quit now censor priority policy tie scale process entity hazard rate eta pieces then";
    for word in words.split_whitespace() {
        let out = typed(&[], &format!("help {word}\nquit\n"));
        let lines: Vec<&str> = out.lines().skip(2).collect();
        assert!(
            lines
                .first()
                .is_some_and(|line| line.starts_with(&format!("  {word} "))),
            "{out}"
        );
        assert!(
            lines
                .iter()
                .all(|line| line.starts_with("   ") || line.starts_with(&format!("  {word}"))),
            "{out}"
        );
    }
    assert!(typed(&[], "help\n").contains("rlwrap olgaemuri interactive"));
}

#[test]
fn help_on_topics() {
    for topic in ["refusals", "format", "answers"] {
        let shown = olgaemuri(&["help", topic], b"");
        let out = typed(&[], &format!("help {topic}\nquit\n"));
        let lines: Vec<&str> = out.lines().skip(2).collect();
        assert_eq!(lines.join("\n"), shown.text().trim_end(), "{topic}");
    }
    let out = typed(&[], "help cause\n");
    assert!(out.contains("one of the ways in which a machine breaks down"));
    // a word of the format goes before a topic of the same name
    let out = typed(&[], "help thresholds\n");
    assert!(out.contains("  thresholds 0.7 1.9 0.2 "), "{out}");
}

#[test]
fn names_with_spaces_can_be_saved_to() {
    let file = scratch("my shop.session");
    let path = file.to_str().unwrap();
    let out = typed(&[], &format!("{PRESS}save {path}\nsave \"{path}\"\nquit\n"));
    let saved = format!("saved; `olgaemuri run '{path}'` runs it again\n");
    assert_eq!(out.matches(&saved).count(), 2, "{out}");
    assert!(
        fs::read_to_string(&file)
            .unwrap()
            .starts_with("thresholds 2 1\n")
    );
    let out = typed(&[], &format!("save {path}\nsave {path} overwrite\n"));
    assert!(out.contains("exists; `save "), "{out}");
    assert_eq!(fs::read_to_string(&file).unwrap(), "");
    fs::remove_file(&file).unwrap();
}

#[test]
fn the_end_of_the_input_warns_of_what_is_not_saved() {
    let file = scratch("saved.session");
    let save = format!("thresholds 1\nsave {}\n", file.display());
    for (input, err) in [
        ("thresholds 1\n", NOT_SAVED),
        ("# noted\n", NOT_SAVED),
        ("list\n\nbanana\n", ""),
        (&save, ""),
        ("thresholds 1\nquit\n", NOT_SAVED),
        ("list\nquit\n", ""),
    ] {
        let ran = olgaemuri(&["interactive"], input.as_bytes());
        assert_eq!((ran.status, ran.err.as_str()), (0, err), "{input}");
    }
    fs::remove_file(&file).unwrap();
}

#[test]
fn saved_comments_stay_where_they_were() {
    let (file, copy) = (scratch("first.session"), scratch("copy.session"));
    let text = "# two machines\nthresholds 2 1  # recorded\nmachine 0 \"press 1\"\n\n# the first\n\
        create machine=\"press 1\" process=0 policy=retain tie=lowest scale=10  # made\n\
        pause machine=7 now=1  # refused\n# the end\n";
    fs::write(&file, text).unwrap();
    let input = format!(
        "# typed\npause machine=\"press 1\" now=1 # stop\nundo #back\nsave {}\n",
        copy.display()
    );
    typed(&[file.to_str().unwrap()], &input);
    let saved = fs::read_to_string(&copy).unwrap();
    let kept = text.replace("pause machine=7 now=1  # refused", "# refused");
    assert_eq!(
        saved,
        kept + "# typed\npause machine=\"press 1\" now=1  # stop\nundo  #back\n"
    );
    fs::remove_file(&file).unwrap();
    fs::remove_file(&copy).unwrap();
}
