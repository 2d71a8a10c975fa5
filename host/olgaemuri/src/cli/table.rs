//! Aligned tables, written row after row.

use olgaemuri::text::{columns, cut, visible};
use std::io::{self, Write};

/// A column's head. Numbers stand to the right; names may be cut where there is little room.
#[derive(Clone, Copy)]
pub enum Column {
    Left(&'static str),
    Right(&'static str),
    Name(&'static str),
}

/// Letters that a name is cut to at most.
const SHORTEST: usize = 6;

impl Column {
    fn head(self) -> &'static str {
        match self {
            Self::Left(head) | Self::Right(head) | Self::Name(head) => head,
        }
    }

    /// The cell in so many columns of the terminal.
    fn fit(self, cell: &str, width: usize) -> String {
        let cell = cut(cell, width);
        let blank = " ".repeat(width - columns(&cell));
        match self {
            Self::Left(_) | Self::Name(_) => cell + &blank,
            Self::Right(_) => blank + &cell,
        }
    }
}

/// A table whose columns are wide enough for all cells that were looked at.
pub struct Table {
    columns: Vec<Column>,
    widths: Vec<usize>,
}

impl Table {
    pub fn new(columns: &[Column]) -> Self {
        let widths = columns.iter().map(|column| column.head().len());
        Self {
            columns: columns.to_vec(),
            widths: widths.collect(),
        }
    }

    /// Makes room for these cells.
    pub fn look_at(&mut self, cells: &[String]) {
        for (width, cell) in self.widths.iter_mut().zip(cells) {
            *width = columns(&visible(cell)).max(*width);
        }
    }

    /// How wide a line is, with two spaces between columns.
    pub fn width(&self) -> usize {
        self.widths.iter().sum::<usize>() + 2 * self.widths.len().saturating_sub(1)
    }

    /// Without the columns of which this is false.
    pub fn only(&self, keep: impl Fn(usize) -> bool) -> Self {
        let places = (0..self.columns.len()).filter(|place| keep(*place));
        let (columns, widths) = places
            .map(|place| (self.columns[place], self.widths[place]))
            .unzip();
        Self { columns, widths }
    }

    /// Cuts names, the longest first, until a line has so many columns, or as few as it can have.
    pub fn narrow(&mut self, most: usize) {
        while self.width() > most {
            let names = self.columns.iter().zip(&mut self.widths);
            let names = names.filter(|(column, _)| matches!(column, Column::Name(_)));
            match names.map(|(_, width)| width).max() {
                Some(width) if *width > SHORTEST => *width -= 1,
                _ => break,
            }
        }
    }

    /// Writes the heads and a rule below them.
    pub fn write_head(&self, out: &mut dyn Write) -> io::Result<()> {
        let heads: Vec<String> = self
            .columns
            .iter()
            .map(|column| column.head().to_string())
            .collect();
        let rule: Vec<String> = self.widths.iter().map(|width| "-".repeat(*width)).collect();
        self.write_row(out, &heads)?;
        self.write_row(out, &rule)
    }

    pub fn write_row(&self, out: &mut dyn Write, cells: &[String]) -> io::Result<()> {
        let cells = self.columns.iter().zip(cells).zip(&self.widths);
        let cells: Vec<String> = cells
            .map(|((column, cell), width)| column.fit(&visible(cell), *width))
            .collect();
        writeln!(out, "{}", cells.join("  ").trim_end())
    }
}

/// Writes a whole table in at most so many columns, where that is said. The rows are made twice, to find the columns' widths and to be
/// written, so that they need not be kept.
pub fn write_aligned<R: Iterator<Item = Vec<String>>>(
    columns: &[Column],
    rows: impl Fn() -> R,
    most: Option<usize>,
    out: &mut dyn Write,
) -> io::Result<()> {
    let mut table = Table::new(columns);
    rows().for_each(|row| table.look_at(&row));
    if let Some(most) = most {
        table.narrow(most);
    }
    table.write_head(out)?;
    rows().try_for_each(|row| table.write_row(out, &row))
}

/// The same table as text.
pub fn aligned(columns: &[Column], rows: &[Vec<String>], most: Option<usize>) -> String {
    text_of(|out| write_aligned(columns, || rows.iter().cloned(), most, out))
}

/// What is written, as text.
pub fn text_of(write: impl FnOnce(&mut dyn Write) -> io::Result<()>) -> String {
    let mut out = Vec::new();
    write(&mut out).expect("memory can be written");
    String::from_utf8(out).expect("only text was written")
}

#[cfg(test)]
mod tests {
    use super::*;

    fn rows() -> [Vec<String>; 2] {
        let rows = [("1", "é", ""), ("10", "a longer name", "x")];
        rows.map(|(a, b, c)| vec![a.to_string(), b.to_string(), c.to_string()])
    }

    const COLUMNS: [Column; 3] = [
        Column::Right("no"),
        Column::Name("name"),
        Column::Left("note"),
    ];

    #[test]
    fn columns_are_aligned() {
        let expected =
            "no  name           note\n--  -------------  ----\n 1  é\n10  a longer name  x\n";
        assert_eq!(aligned(&COLUMNS, &rows(), None), expected);
        assert_eq!(aligned(&COLUMNS, &rows(), Some(23)), expected);
    }

    #[test]
    fn names_are_cut_where_there_is_little_room() {
        let expected = "no  name      note\n--  --------  ----\n 1  é\n10  a longe…  x\n";
        assert_eq!(aligned(&COLUMNS, &rows(), Some(18)), expected);
        // no further than to six letters
        let narrowest = aligned(&COLUMNS, &rows(), Some(1));
        assert!(narrowest.ends_with("\n10  a lon…  x\n"), "{narrowest}");
    }
}
