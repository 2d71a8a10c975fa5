//! Help, wrong words, bad files and exit statuses.

use super::program::{olgaemuri, scratch};
use std::fs;

#[test]
fn help_is_there_for_everything() {
    let general = olgaemuri(&["--help"], b"");
    assert_eq!(general.status, 0);
    for topic in ["run", "compare", "convert", "interactive", "rate", "curve"] {
        assert!(general.text().contains(&format!("olgaemuri {topic}")));
        let by_option = olgaemuri(&[topic, "--help"], b"");
        let by_word = olgaemuri(&["help", topic], b"");
        assert_eq!((by_option.status, by_word.status), (0, 0));
        assert_eq!(by_option.out, by_word.out);
        assert!(
            by_word
                .text()
                .starts_with(&format!("usage: olgaemuri {topic}"))
        );
    }
    assert!(
        olgaemuri(&["help", "format"], b"")
            .text()
            .contains("reschedule machine=3 now=T")
    );
    assert!(
        olgaemuri(&["help", "answers"], b"")
            .text()
            .contains("took back")
    );
    let refusals = olgaemuri(&["help", "refusals"], b"");
    for line in [
        "\n   5  a time is not from +0.0 to 2^40, a rate or scale is not finite or above\n      2^40 in size, or a Weibull scale is above 0 and below 2^-40\n",
        "\n  15  a threshold is to be drawn",
        "\n  23  the threshold is not above 0",
        "\n  24  no rate above 0",
    ] {
        assert!(refusals.text().contains(line), "{}", refusals.text());
    }
}

#[test]
fn help_on_a_word_of_the_format() {
    let help = olgaemuri(&["help", "set"], b"");
    assert_eq!(help.status, 0);
    assert!(
        help.text()
            .lines()
            .all(|line| line.starts_with("  set ") || line.starts_with("      "))
    );
    assert!(help.text().contains("hazard=gompertz eta=R"));
    assert!(help.text().contains("hazard=weibull scale=AGE"));
    let help = olgaemuri(&["help", "scale"], b"");
    for part in ["of `create`: ticks", "Of a weibull hazard: the"] {
        assert!(help.text().contains(part), "{}", help.text());
    }
    for kind in ["zero", "constant", "gompertz", "piecewise", "weibull"] {
        let help = olgaemuri(&["help", kind], b"");
        assert!(help.text().starts_with("  hazard    how fast"), "{kind}");
        assert!(help.text().contains(kind), "{}", help.text());
    }
    for (word, part) in [
        ("pieces", "Answers number them from 0"),
        ("then", "number as the last piece"),
    ] {
        let help = olgaemuri(&["help", word], b"");
        assert!(help.text().contains(part), "{}", help.text());
    }
    let help = olgaemuri(&["help", "policy"], b"");
    assert!(help.text().starts_with("  policy    what `set` does"));
    assert_eq!(olgaemuri(&["help", "A"], b"").status, 2);
}

#[test]
fn the_session_is_not_written_over() {
    let file = scratch("own.session");
    let path = file.to_str().unwrap();
    fs::write(&file, "undo # kept\n").unwrap();
    let beside = format!(
        "{}/./{}",
        file.parent().unwrap().display(),
        file.file_name().unwrap().display()
    );
    for words in [
        ["run", path, "--svg", &beside],
        ["convert", "--to=bytes", path, &beside],
        ["convert", "--to=bare", path, &beside],
    ] {
        let ran = olgaemuri(&words, b"");
        assert_eq!((ran.status, ran.text()), (2, ""), "{words:?}");
        assert_eq!(fs::read_to_string(&file).unwrap(), "undo # kept\n");
    }
    // from text to text nothing is lost
    assert_eq!(
        olgaemuri(&["convert", "--to=text", path, path], b"").status,
        0
    );
    assert_eq!(fs::read_to_string(&file).unwrap(), "undo  # kept\n");
    fs::remove_file(&file).unwrap();
}

#[test]
fn the_session_in_the_help_runs() {
    let help = olgaemuri(&["--help"], b"");
    let lines = help
        .text()
        .lines()
        .skip_while(|line| !line.contains("thresholds 2 1"));
    let session: Vec<&str> = lines.take_while(|line| !line.is_empty()).collect();
    let ran = olgaemuri(&["run", "-"], session.join("\n").as_bytes());
    assert_eq!((ran.status, ran.err.as_str()), (0, ""));
    assert!(ran.text().contains(
        "5 commands: 5 accepted, 0 refused; 1 taken back, 3 in force. Thresholds drawn: 1 of 2."
    ));
    assert!(
        ran.text()
            .contains(" 1  press 1  ram seal   4    40  scheduled"),
        "{}",
        ran.text()
    );
}

#[test]
fn wrong_words_get_a_suggestion() {
    let cases: [(&[&str], &str); 8] = [
        (&["rnu"], "unknown subcommand `rnu`; did you mean `run`?"),
        (
            &["README.md"],
            "unknown subcommand `README.md`; did you mean `olgaemuri run README.md`?",
        ),
        (
            &["run", "--cvs", "x"],
            "unknown option `--cvs`; did you mean `--csv`?",
        ),
        (
            &["help", "formt"],
            "there is no help on `formt`; did you mean `format`?",
        ),
        (
            &["run"],
            "`olgaemuri run` takes one FILE, or - for standard input",
        ),
        (
            &["run", "a", "--csv", "--json"],
            "`--csv` and `--json` do not go together",
        ),
        (
            &["run", "a", "--title", "b"],
            "`--title` needs `--svg OUT`: it is the picture's",
        ),
        (&["run", "no such file"], "cannot read no such file: "),
    ];
    for (words, expected) in cases {
        let ran = olgaemuri(words, b"");
        assert_eq!(ran.status, 2, "{words:?}");
        assert!(ran.err.starts_with(expected), "{}", ran.err);
        assert_eq!(ran.text(), "");
    }
}

#[test]
fn without_words_and_without_a_terminal_it_says_how_it_is_used() {
    let ran = olgaemuri(&[], b"");
    assert_eq!(ran.status, 2);
    assert!(ran.err.contains(
        "usage: olgaemuri run|compare|convert|interactive|thresholds|sweep|summary|rate|"
    ));
    // the whole of it, which takes two lines
    let words: Vec<&str> = ran.err.lines().skip(1).take(2).map(str::trim).collect();
    assert!(words.concat().ends_with("|rate|curve|help"), "{}", ran.err);
}

#[test]
fn every_bad_line_is_told_and_nothing_is_run() {
    let ran = olgaemuri(
        &["run", "-"],
        b"undo\ncreat machine=0\nset machine=0 casue=1\n",
    );
    assert_eq!((ran.status, ran.text()), (2, ""));
    let expected = "standard input:2:1: unknown word `creat`; did you mean `create`?\n    creat machine=0\n    ^\n\
        standard input:3:15: unknown operand `casue`; did you mean `cause`?\n    set machine=0 casue=1\n                  ^\n";
    assert_eq!(ran.err, expected);
}

#[test]
fn many_bad_lines_are_counted() {
    let ran = olgaemuri(&["run", "-"], "x\n".repeat(30).as_bytes());
    assert_eq!(ran.err.matches("unknown word").count(), 20);
    assert!(ran.err.ends_with("and 10 more bad lines\n"));
}

#[test]
fn a_refusal_is_an_answer() {
    let session = "journal 40\nthresholds 5000\ncreate machine=0 policy=retain\ncreate machine=0 policy=retain\n\
        create machine=16 policy=retain\npause machine=1 now=0\npause machine=0 now=-1\ndeliver\n\
        set machine=0 cause=1 now=0 hazard=zero\n";
    let ran = olgaemuri(&["run", "-"], session.as_bytes());
    assert_eq!((ran.status, ran.err.as_str()), (0, ""));
    let numbers: Vec<&str> = ran
        .text()
        .split("refused by ")
        .skip(1)
        .map(|part| part.split(' ').next().unwrap())
        .collect();
    assert_eq!(numbers, ["8", "7", "9", "5", "11", "14"]);
}
