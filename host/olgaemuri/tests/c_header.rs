//! The C header's numbers are the ones of this crate.

use olgaemuri::{ANSWER_BYTES, CLOCKS, Command, MAX_PAIRS, Policy, Refusal, Tie, width};

const HEADER: &str = include_str!("../../olgaemuri-sys/include/olgaemuri.h");

/// `OutOfRange` as `OUT_OF_RANGE`.
fn upper_case(name: &str) -> String {
    let mut words = String::new();
    for letter in name.chars() {
        if letter.is_uppercase() && !words.is_empty() {
            words.push('_');
        }
        words.extend(letter.to_uppercase());
    }
    words
}

/// The number that the header gives to the name.
fn number(name: &str) -> usize {
    let front = format!("    OLGAEMURI_{name} = ");
    let line = HEADER.lines().find_map(|line| line.strip_prefix(&front));
    let line = line.unwrap_or_else(|| panic!("{name} is in no line of its own"));
    let digits = line.split(|letter: char| !letter.is_ascii_digit()).next();
    digits
        .and_then(|digits| digits.parse().ok())
        .expect("a number")
}

#[test]
fn refusals() {
    for refusal in Refusal::ALL {
        assert_eq!(
            number(&upper_case(&format!("{refusal:?}"))),
            usize::from(refusal.number())
        );
    }
}

#[test]
fn choices() {
    for policy in Policy::ALL {
        assert_eq!(
            number(&upper_case(&format!("{policy:?}"))),
            usize::from(policy.number())
        );
    }
    for tie in Tie::ALL {
        assert_eq!(
            number(&upper_case(&format!("{tie:?}"))),
            usize::from(tie.number())
        );
    }
}

#[test]
fn codes_and_widths() {
    let names = [
        "CREATE",
        "SET",
        "REMOVE",
        "RESCHEDULE",
        "PAUSE",
        "RESUME",
        "DELIVER",
        "UNDO",
    ];
    for (name, code) in names.into_iter().zip(1..) {
        assert_eq!(number(name), usize::from(code));
        assert_eq!(Some(number(&format!("{name}_BYTES"))), width(code));
        let mut bytes = vec![0; 156];
        bytes[0] = code;
        assert_eq!(
            Command::from_bytes(&bytes).map(|command| command.name()),
            Ok(name)
        );
    }
    assert_eq!(number("ANSWER_BYTES"), ANSWER_BYTES);
    assert_eq!(number("CLOCKS"), CLOCKS);
    assert_eq!(number("PAIRS"), MAX_PAIRS);
}
