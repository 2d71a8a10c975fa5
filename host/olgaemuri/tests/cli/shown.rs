//! What a reader of the terminal sees: widths, wide and odd letters, numbers of things, which operand is refused.

use super::program::{by_shell, olgaemuri, on_terminal};

fn run(words: &[&str], session: &str) -> String {
    let words = [&["run", "-"], words].concat();
    let ran = olgaemuri(&words, session.as_bytes());
    assert_eq!((ran.status, ran.err.as_str()), (0, ""));
    ran.text().to_string()
}

const ONE: &str = "thresholds 2\ncreate machine=0 policy=retain scale=10\n\
    set machine=0 cause=1 now=0 hazard=constant rate=0.5\nreschedule machine=0 now=0\n";

#[test]
fn one_of_a_thing() {
    let out = run(&[], "create machine=0 policy=retain\n");
    assert!(out.contains("\n1 command: 1 accepted, 0 refused;"), "{out}");
    let out = run(&[], "undo\nraw 09\n");
    assert!(
        out.contains(" 1 byte from there on is no whole command."),
        "{out}"
    );
    let picture = run(
        &["--svg", "-"],
        "thresholds 1\ncreate machine=0 policy=retain\n",
    );
    assert!(
        picture.contains(">1 command in force, 0 taken back and not drawn; 0 thresholds drawn<"),
        "{picture}"
    );
    let picture = run(&["--svg", "-"], ONE);
    assert!(picture.contains("; 1 threshold drawn<"), "{picture}");
    let ran = olgaemuri(&["run", "-"], "x\n".repeat(21).as_bytes());
    assert!(ran.err.ends_with("and 1 more bad line\n"), "{}", ran.err);
}

#[test]
fn one_event_is_the_same_or_differs() {
    let file = super::program::scratch("one-event.session");
    std::fs::write(&file, ONE).unwrap();
    for (other, verdict) in [
        (ONE, "are the same: 1 event, to the last bit.\n"),
        ("", "differ in 1 of 1 place.\n"),
    ] {
        let ran = olgaemuri(&["compare", file.to_str().unwrap(), "-"], other.as_bytes());
        assert!(ran.text().ends_with(verdict), "{}", ran.text());
    }
    std::fs::remove_file(&file).unwrap();
}

/// The columns that a text takes on a terminal, for the letters of these tests.
fn columns(text: &str) -> usize {
    let wide = |c: char| ('\u{1100}'..'\u{ffff}').contains(&c) || c > '\u{1f000}';
    let width = |c: char| match c {
        '\u{300}'..'\u{370}' => 0,
        '\u{2026}' => 1,
        c if wide(c) => 2,
        _ => 1,
    };
    text.chars().map(width).sum()
}

#[test]
fn wide_letters_are_aligned() {
    let named = ONE.to_string()
        + "machine 0 \"プレス機\"\nmachine 1 \"e\u{301}toile\"\nmachine 2 \"🔧\"\nmachine 3 \"plain\"\n"
        + "create machine=1 policy=retain\ncreate machine=2 policy=retain\ncreate machine=3 policy=retain\n";
    let out = run(&[], &named);
    let rows = out.lines().filter(|line| line.contains(" create "));
    let places: Vec<usize> = rows
        .map(|line| columns(line.split(" create ").next().unwrap()))
        .collect();
    assert_eq!(places.len(), 4, "{out}");
    assert!(
        places.iter().all(|place| *place == places[0]),
        "{places:?}\n{out}"
    );
    // there is room for all of them
    assert!(out.contains(" プレス機  create "), "{out}");
}

#[test]
fn control_characters_do_not_reach_the_terminal() {
    let odd = "a\u{1b}[31m\u{7}\u{9b}\u{202e}b";
    let session = format!("machine 0 \"{odd}\"\ncause 1 \"{odd}\"\n{ONE}pause machine=1 now=0\n");
    let is_odd = |c: char| (c.is_control() && c != '\n') || c == '\u{202e}';
    let out = run(&[], &session);
    assert!(!out.contains(is_odd), "{out:?}");
    let narrow = run(&["--width", "64"], &session);
    assert!(!narrow.contains(is_odd), "{narrow:?}");
    let picture = run(&["--svg", "-"], &session);
    assert!(!picture.contains(is_odd), "{picture:?}");
    let typed = olgaemuri(
        &["interactive"],
        format!("{session}list\nsave no/such \u{1b}[31m\n").as_bytes(),
    );
    assert!(!typed.text().contains(is_odd), "{:?}", typed.text());
    let bad = olgaemuri(
        &["run", "-"],
        format!("und{odd}\npause machine=\"{odd}\" now=1 {odd}=3\n").as_bytes(),
    );
    assert!(
        bad.status == 2 && !bad.err.contains(is_odd),
        "{:?}",
        bad.err
    );
    let file = super::program::scratch(&format!("{odd}.session"));
    std::fs::write(&file, ONE).unwrap();
    let words = ["compare", "-", file.to_str().unwrap()];
    let side_by_side = olgaemuri(&words, session.as_bytes());
    std::fs::remove_file(&file).unwrap();
    assert_eq!(side_by_side.status, 0);
    assert!(!side_by_side.text().contains(is_odd), "{side_by_side:?}");
    // data stays as it is
    let text = olgaemuri(&["convert", "-", "--to", "text"], session.as_bytes());
    assert!(text.text().contains(odd));
}

/// What is data elsewhere is only looked at on a terminal.
#[test]
fn data_on_a_terminal() {
    let odd = "a\u{1b}[31m\u{7}\u{9b}\u{202e}\u{7f}b";
    let file = super::program::scratch("odd-names.session");
    std::fs::write(
        &file,
        format!("machine 0 \"{odd}\"\ncause 1 \"{odd}\"\n{ONE}"),
    )
    .unwrap();
    let file_name = file.to_str().unwrap();
    let is_odd = |c: char| (c.is_control() && c != '\n' && c != '\r') || c == '\u{202e}';
    let in_json = "\"a\\u001b[31m\\u0007\\u009b\\u202e\\u007fb\"";
    let sweep = ["sweep", "--streams", "2", "--seed", "1"];
    for (words, here, elsewhere) in [
        (&["run", "--csv"][..], ",a�[31m����b,", odd),
        (&["run", "--csv=events"], ",a�[31m����b,", odd),
        (&["run", "--json"], in_json, in_json),
        (&["convert", "--to", "text"], "\"a�[31m����b\"", odd),
        (
            &[&sweep[..], &["--rows", "-"]].concat(),
            ",a�[31m����b,",
            odd,
        ),
        (&[&sweep[..], &["--csv"]].concat(), ",a�[31m����b,", odd),
        (&[&sweep[..], &["--json"]].concat(), in_json, in_json),
    ] {
        let words = [words, &[file_name]].concat();
        let shown = on_terminal(&words, b"");
        assert!(!shown.text().contains(is_odd), "{words:?} {shown:?}");
        assert!(shown.text().contains(here), "{words:?} {shown:?}");
        let piped = olgaemuri(&words, b"");
        assert!(piped.text().contains(elsewhere), "{words:?} {piped:?}");
    }
    // what is only shown is not saved
    let typed = on_terminal(
        &["interactive", file_name],
        b"pause machine=0 now=1\nsave -\nquit\nquit\n",
    );
    std::fs::remove_file(&file).unwrap();
    assert!(!typed.text().contains(is_odd), "{typed:?}");
    assert!(typed.text().contains("\"a�[31m����b\""), "{typed:?}");
    assert!(typed.text().contains("not saved: "), "{typed:?}");
}

#[test]
fn bytes_are_not_written_to_a_terminal() {
    let session = "examples/press-shop.session";
    for words in [
        &["convert", "--to", "bytes", session][..],
        &["convert", "--to", "bare", session],
        &["convert", "--to", "bytes", session, "/dev/tty"],
        &["thresholds", "--seed", "1", "--count", "3", "--bytes"],
    ] {
        let shown = on_terminal(words, b"");
        let told = "bytes are not written to a terminal: name a file, or use a pipe\r\n";
        assert_eq!((shown.status, shown.text()), (2, told), "{words:?}");
    }
}

#[test]
fn tables_fit_the_width() {
    let session = String::from_utf8(super::program::example("press-shop.session")).unwrap();
    for width in [64, 80, 100, 120, 159, 166] {
        let out = run(&["--width", &width.to_string()], &session);
        let widest = out.lines().map(columns).max().unwrap();
        assert!(widest <= width, "{widest} columns of {width}\n{out}");
        // nothing is lost
        let words = out.split_whitespace().collect::<Vec<&str>>().join(" ");
        for part in [
            "tool break: rate 0.06",
            "undone by 34",
            "52 commands: 51 accepted",
        ] {
            assert!(words.contains(part), "{part}\n{out}");
        }
    }
    assert_eq!(run(&["--width", "400"], &session), run(&[], &session));
    for word in ["x", "63"] {
        let ran = olgaemuri(&["run", "-", "--width", word], b"");
        assert_eq!(ran.status, 2);
        let told = format!("expected a whole number of columns, 64 or more, not `{word}`\n");
        assert!(ran.err.starts_with(&told), "{}", ran.err);
    }
}

/// Names of many words, with wide letters.
#[test]
fn tables_with_long_names_fit_the_width() {
    let name = "プレス機 の 油圧 ".repeat(8);
    let session = format!("machine 0 \"{name}\"\ncause 1 \"{name}\"\n{ONE}");
    let file = super::program::scratch("long-names.session");
    std::fs::write(&file, &session).unwrap();
    let words = ["compare", file.to_str().unwrap(), "-", "--width", "64"];
    let compared = olgaemuri(&words, session.as_bytes());
    std::fs::remove_file(&file).unwrap();
    for out in [&run(&["--width", "64"], &session), compared.text()] {
        let tables = out.lines().filter(|line| !line.starts_with("left: "));
        let widest = tables.max_by_key(|line| columns(line)).unwrap();
        assert!(columns(widest) <= 64, "{widest}\n{out}");
        assert!(out.contains("…  "), "{out}");
    }
}

/// Nobody has to say how wide the terminal is. Progress, which a slow machine tells of, is left out.
#[test]
fn tables_fit_the_terminal() {
    let terminals = [
        "unset COLUMNS; exec script -qec \"stty cols 80; $* 2>/dev/null\" /dev/null",
        "export COLUMNS=80; exec script -qec \"stty cols 200; $* 2>/dev/null\" /dev/null",
    ];
    let session = "examples/press-shop.session";
    for words in [
        &["run", session][..],
        &["compare", session, session],
        &["sweep", session, "--streams", "20", "--seed", "1"],
    ] {
        let wide = olgaemuri(words, b"");
        assert!(wide.text().lines().any(|line| columns(line) > 80));
        for terminal in terminals {
            let shown = by_shell(terminal, words, b"");
            assert_eq!(shown.status, 0, "{shown:?}");
            let lines = shown.text().lines().map(str::trim_end);
            let widest = lines.max_by_key(|line| columns(line)).unwrap();
            assert!(columns(widest) <= 80, "{words:?} {terminal}: {widest}");
        }
    }
}

#[test]
fn a_list_fits_the_terminal() {
    let pieces = "1:0.125,2:0.25,3:0.375,4:0.5,5:0.625,6:0.75,7:0.875,8:1";
    let name = "a name of many words ".repeat(4);
    let session = format!(
        "machine 0 \"{name}\"\ncause 1 \"{name}\"\n{ONE}\
        set machine=0 cause=2 now=0 hazard=piecewise pieces={pieces} then=1.125\n\
        reschedule machine=0 now=0\n"
    );
    let file = super::program::scratch("list.session");
    std::fs::write(&file, session.replace("thresholds 2", "thresholds 2 9")).unwrap();
    let words = ["interactive", file.to_str().unwrap()];
    let terminal = "export COLUMNS=64; exec script -qec \"stty -echo; $*\" /dev/null";
    let shown = by_shell(terminal, &words, b"list\nquit\n");
    let piped = olgaemuri(&words, b"list\nquit\n");
    std::fs::remove_file(&file).unwrap();
    let from = |text: &str| {
        text.find("no  command in force")
            .map(|at| text[at..].to_string())
    };
    let (shown, piped) = (from(shown.text()).unwrap(), from(piped.text()).unwrap());
    let lines = shown.lines().map(str::trim_end);
    let widest = lines.max_by_key(|line| columns(line)).unwrap();
    assert!(columns(widest) <= 64, "{widest}\n{shown}");
    assert!(shown.contains("…  "), "{shown}");
    let parts: String = shown.split_whitespace().collect();
    assert!(parts.contains(&format!("pieces={pieces}then=")), "{shown}");
    // elsewhere a command is a line
    assert!(
        piped.contains(&format!(" pieces={pieces} then=1.125\n")),
        "{piped}"
    );
}

#[test]
fn help_fits_80_columns() {
    for topic in [
        "",
        "run",
        "compare",
        "convert",
        "interactive",
        "thresholds",
        "sweep",
        "summary",
        "rate",
        "format",
        "answers",
        "refusals",
    ] {
        let words: &[&str] = if topic.is_empty() {
            &["help"]
        } else {
            &["help", topic]
        };
        let out = olgaemuri(words, b"");
        let longest = out.text().lines().max_by_key(|line| columns(line)).unwrap();
        assert!(columns(longest) <= 80, "{longest}");
    }
}

/// Lines that are refused by 5, and what is said of them.
const OUT_OF_RANGE: [(&str, &str); 12] = [
    (
        "create machine=1 policy=retain scale=inf",
        "scale=inf: a scale is finite and at most 2^40 in size",
    ),
    ("pause machine=0 now=-1", "now=-1: a time is from 0 to 2^40"),
    (
        "pause machine=0 now=-0",
        "now=-0: a time is from 0 to 2^40, and -0 is below 0",
    ),
    (
        "reschedule machine=0 now=0 censor=2e12",
        "censor=2000000000000: a time is from 0 to 2^40",
    ),
    (
        "resume machine=0 now=0x7ff8000000000000 censor=-1",
        "now=0x7ff8000000000000, censor=-1: a time is from 0 to 2^40",
    ),
    (
        "set machine=0 cause=2 now=0 hazard=constant rate=-inf",
        "rate=-inf: a rate is finite and at most 2^40 in size",
    ),
    (
        "set machine=0 cause=2 now=0 hazard=gompertz eta=1e13",
        "eta=10000000000000: a rate is finite and at most 2^40 in size",
    ),
    (
        "set machine=0 cause=2 now=-3 hazard=piecewise pieces=1:1,2:inf then=inf",
        "now=-3: a time is from 0 to 2^40; rate inf up to 2, then=inf: a rate is finite and at most 2^40 in size",
    ),
    (
        "set machine=0 cause=2 now=0 hazard=weibull scale=1e-13",
        "scale=1e-13: a weibull scale above 0 is at least 2^-40",
    ),
    (
        "set machine=0 cause=2 now=0 hazard=weibull scale=0x3d6fffffffffffff",
        "scale=9.094947017729281e-13: a weibull scale above 0 is at least 2^-40",
    ),
    (
        "set machine=0 cause=2 now=0 hazard=weibull scale=inf",
        "scale=inf: a scale is finite and at most 2^40 in size",
    ),
    (
        "set machine=0 cause=2 now=-3 hazard=weibull scale=-1e13",
        "now=-3: a time is from 0 to 2^40; scale=-10000000000000: a scale is finite and at most 2^40 in size",
    ),
];

#[test]
fn refusal_5_names_the_operand() {
    for (line, expected) in OUT_OF_RANGE {
        let out = run(&["--csv"], &format!("{ONE}{line}\n"));
        let last = out.lines().last().unwrap();
        assert!(
            last.contains(",5,") && last.contains(expected),
            "{expected}\n{last}"
        );
        let out = run(&[], &format!("{ONE}{line}\n"));
        assert!(out.contains(expected), "{expected}\n{out}");
        let out = run(&["--json"], &format!("{ONE}{line}\n"));
        let told = format!("\"number\": 5, \"refusal\": \"{expected}\", ");
        assert!(out.contains(&told), "{told}\n{out}");
        let typed = olgaemuri(&["interactive"], format!("{ONE}{line}\n").as_bytes());
        let told = format!("refused by 5: {expected}; nothing has changed\n");
        assert!(typed.text().contains(&told), "{told}\n{}", typed.text());
    }
}
