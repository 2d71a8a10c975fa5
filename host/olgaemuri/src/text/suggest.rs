//! The word that was probably meant.

/// Words of more bytes are no slips of a known one.
const LONGEST: usize = 100;

/// The known word nearest to this one, where it is near enough to be a slip or a beginning.
#[must_use]
pub fn closest<'a>(word: &str, known: &[&'a str]) -> Option<&'a str> {
    if word.len() > LONGEST {
        return None;
    }
    let word = word.to_lowercase();
    let begun = known
        .iter()
        .find(|k| word.len() >= 3 && k.starts_with(&word));
    let limit = 1 + word.chars().count() / 4;
    let near = known
        .iter()
        .filter(|k| k.len() <= 2 * LONGEST)
        .map(|k| (distance(&word, k), *k))
        .filter(|pair| pair.0 <= limit)
        .min_by_key(|pair| pair.0);
    begun.copied().or(near.map(|pair| pair.1))
}

/// `; did you mean ...?`, or nothing.
#[must_use]
pub fn hint(word: &str, known: &[&str]) -> String {
    hint_or(word, known, "")
}

/// `; did you mean ...?`, or these words instead.
#[must_use]
pub fn hint_or(word: &str, known: &[&str], otherwise: &str) -> String {
    match closest(word, known) {
        Some(meant) => format!("; did you mean `{meant}`?"),
        None => otherwise.to_string(),
    }
}

/// Letters added, dropped, changed or exchanged with their neighbour on the way from one word to the other.
fn distance(from: &str, to: &str) -> usize {
    let (from, to): (Vec<char>, Vec<char>) = (from.chars().collect(), to.chars().collect());
    let mut rows: Vec<Vec<usize>> = vec![(0..=to.len()).collect()];
    for i in 1..=from.len() {
        rows.push(next_row(&rows, &from[..i], &to));
    }
    rows[from.len()][to.len()]
}

/// The distances of the beginning `from` to every beginning of `to`, given those of the shorter ones.
fn next_row(rows: &[Vec<usize>], from: &[char], to: &[char]) -> Vec<usize> {
    let i = from.len();
    let above = &rows[i - 1];
    let mut row = vec![i];
    for j in 1..=to.len() {
        let change = above[j - 1] + usize::from(from[i - 1] != to[j - 1]);
        let mut best = change.min(above[j] + 1).min(row[j - 1] + 1);
        if i > 1 && j > 1 && from[i - 1] == to[j - 2] && from[i - 2] == to[j - 1] {
            best = best.min(rows[i - 2][j - 2] + 1);
        }
        row.push(best);
    }
    row
}

#[cfg(test)]
mod tests {
    use super::*;

    const WORDS: [&str; 4] = ["create", "reschedule", "cause", "pause"];

    #[test]
    fn slips_are_recognised() {
        assert_eq!(closest("casue", &WORDS), Some("cause"));
        assert_eq!(closest("craete", &WORDS), Some("create"));
        assert_eq!(closest("PAUSE", &WORDS), Some("pause"));
        assert_eq!(closest("resched", &WORDS), Some("reschedule"));
    }

    #[test]
    fn other_words_are_left_alone() {
        assert_eq!(closest("banana", &WORDS), None);
        assert_eq!(closest("x", &WORDS), None);
    }

    #[test]
    fn distances() {
        assert_eq!(distance("", "abc"), 3);
        assert_eq!(distance("abc", "acb"), 1);
        assert_eq!(distance("kitten", "sitting"), 3);
    }
}
