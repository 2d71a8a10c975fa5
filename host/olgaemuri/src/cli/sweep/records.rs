//! Records of comma-separated values (RFC 4180), one after another.

use std::io::{self, BufRead};

/// Reads the next record, which may go over several lines, into cells; none at the end. How many lines it has is returned too.
pub fn next_record(file: &mut dyn BufRead) -> io::Result<Option<(Vec<String>, usize)>> {
    let mut record = String::new();
    let mut lines = 0;
    while file.read_line(&mut record)? > 0 {
        lines += 1;
        if record.matches('"').count().is_multiple_of(2) {
            break;
        }
    }
    Ok((lines > 0).then(|| (cells(record.trim_end_matches(['\n', '\r'])), lines)))
}

fn cells(record: &str) -> Vec<String> {
    let mut cells = vec![String::new()];
    let mut in_quotes = false;
    let mut chars = record.chars().peekable();
    while let Some(c) = chars.next() {
        let cell = cells.last_mut().expect("there is always one");
        match c {
            '"' if in_quotes && chars.next_if_eq(&'"').is_some() => cell.push('"'),
            '"' => in_quotes = !in_quotes,
            ',' if !in_quotes => cells.push(String::new()),
            c => cell.push(c),
        }
    }
    cells
}

#[cfg(test)]
mod tests {
    use super::*;
    use crate::cli::csv::quoted;

    #[test]
    fn records_are_read() {
        let names = ["plain", "", "a,b", "a \"b\"", "two\nlines", "\""];
        let written = names.map(quoted).join(",") + "\nx,y\r\nz";
        let mut file = written.as_bytes();
        let read = |file: &mut &[u8]| next_record(file).unwrap();
        assert_eq!(
            read(&mut file),
            Some((names.map(str::to_string).to_vec(), 2))
        );
        assert_eq!(
            read(&mut file),
            Some((vec!["x".to_string(), "y".to_string()], 1))
        );
        assert_eq!(read(&mut file), Some((vec!["z".to_string()], 1)));
        assert_eq!(read(&mut file), None);
    }
}
