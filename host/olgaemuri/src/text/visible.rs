//! Text as a terminal shows it: without control characters, with the columns that it takes, cut where it is long.

use super::letter_width::letter_width;
use std::borrow::Cow;

/// The text without characters that a terminal obeys: control characters, and those that turn the direction of writing. The end of a
/// line stays and a tab is a space.
#[must_use]
pub fn visible(text: &str) -> Cow<'_, str> {
    if !text.contains(|c| c == '\t' || (c != '\n' && is_obeyed(c))) {
        return text.into();
    }
    let shown = |c: char| match c {
        '\n' => c,
        '\t' => ' ',
        c if is_obeyed(c) => char::REPLACEMENT_CHARACTER,
        c => c,
    };
    text.chars().map(shown).collect()
}

/// Whether a terminal does something else than to show it. No such character is above `\u{ffff}`.
#[must_use]
pub fn is_obeyed(c: char) -> bool {
    if c.is_ascii() {
        return c.is_ascii_control();
    }
    let turns = ['\u{61c}', '\u{200e}', '\u{200f}', '\u{2028}', '\u{2029}'];
    let ranges = ['\u{202a}'..='\u{202e}', '\u{2066}'..='\u{2069}'];
    c.is_control() || turns.contains(&c) || ranges.iter().any(|range| range.contains(&c))
}

/// How many columns of a terminal the text takes: two for a wide letter, none for a mark that is set on another letter. Letters count
/// one by one, as on terminals that do not join them: a pictograph of several letters takes what its parts take.
#[must_use]
pub fn columns(text: &str) -> usize {
    if text.is_ascii() {
        return text.len();
    }
    text.chars().map(letter_width).sum()
}

/// The text in at most so many columns, of which the last is an ellipsis where it is cut.
#[must_use]
pub fn cut(text: &str, most: usize) -> String {
    if columns(text) <= most {
        return text.to_string();
    }
    let mut room = most.saturating_sub(1);
    let fits = |c: &char| {
        let left = room.checked_sub(letter_width(*c));
        room = left.unwrap_or(0);
        left.is_some()
    };
    text.chars().take_while(fits).chain(['…']).collect()
}

/// Both ends of a text that is longer than so many characters.
pub(crate) fn ends(text: &str, most: usize) -> String {
    let half = most / 2;
    let front: String = text.chars().take(half).collect();
    let mut back: Vec<char> = text.chars().rev().take(half).collect();
    if text.len() <= most || text.chars().nth(most).is_none() {
        return text.to_string();
    }
    back.reverse();
    front + "…" + &String::from_iter(back)
}

#[cfg(test)]
mod tests {
    use super::*;

    #[test]
    fn nothing_is_left_to_obey() {
        assert_eq!(visible("a\u{1b}[1m\tb\n\u{85}\u{202e}é"), "a�[1m b\n��é");
    }

    #[test]
    fn letters_have_their_columns() {
        let cases = [
            ("", 0),
            ("abc", 3),
            ("é", 1),
            ("e\u{301}", 1),
            ("プレス", 6),
            ("🔧", 2),
            ("…", 1),
            // an Arabic and a Thai word with marks, a Hangul syllable whole and in parts
            ("كِتَاب", 4),
            ("ที่นี่", 2),
            ("한\u{1112}\u{1161}\u{11ab}", 4),
            // a selector adds nothing, joined pictographs and a colour count
            ("❤\u{fe0f}", 1),
            ("⚡\u{fe0f}", 2),
            ("👩\u{200d}🔧", 4),
            ("👍🏽", 4),
        ];
        for (text, expected) in cases {
            assert_eq!(columns(text), expected, "{text}");
        }
    }

    #[test]
    fn what_is_replaced_takes_as_many_columns() {
        for letter in ('\0'..=char::MAX).filter(|c| is_obeyed(*c)) {
            let width = letter_width(char::REPLACEMENT_CHARACTER);
            assert_eq!(letter_width(letter), width, "{letter:?}");
        }
    }

    #[test]
    fn long_texts_are_cut() {
        let cases = [
            ("abcdef", 6, "abcdef"),
            ("abcdef", 5, "abcd…"),
            ("プレス機", 6, "プレ…"),
            ("プレス機", 2, "…"),
            ("e\u{301}e\u{301}e\u{301}", 2, "e\u{301}…"),
            ("ab", 0, "…"),
        ];
        for (text, most, expected) in cases {
            assert_eq!(cut(text, most), expected);
        }
        assert_eq!(ends("abcdefghij", 4), "ab…ij");
        assert_eq!(ends("abcd", 4), "abcd");
        assert_eq!(ends("éééé", 4), "éééé");
    }
}
