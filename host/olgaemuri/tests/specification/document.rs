//! The document's tables, and numbers in the engine's sources.

/// The document.
pub const TEXT: &str = include_str!("../../../../docs/SPECIFICATION.md");

/// Codes, widths and the places of fields, as the engine has them.
const COMMANDS: &str = include_str!("../../../../crates/engine/src/commands.rt");

/// The rows of the table that begins with this line, cell by cell.
pub fn table(head: &str) -> Vec<Vec<&'static str>> {
    let mut lines = TEXT.lines().skip_while(|line| *line != head);
    assert!(lines.next().is_some(), "no table {head}");
    let rows = lines.skip(1).take_while(|line| line.starts_with('|'));
    let rows: Vec<Vec<&str>> = rows.map(cells).collect();
    let width = cells(head).len();
    assert!(
        !rows.is_empty() && rows.iter().all(|row| row.len() == width),
        "{head}"
    );
    rows
}

fn cells(line: &str) -> Vec<&str> {
    let inner = line.trim_start_matches('|').trim_end_matches('|');
    inner.split('|').map(str::trim).collect()
}

/// The document's number in a cell.
pub fn number(cell: &str) -> usize {
    cell.parse()
        .unwrap_or_else(|_| panic!("`{cell}` is no number"))
}

/// The blocks between three backticks.
pub fn blocks() -> Vec<&'static str> {
    TEXT.split("```").skip(1).step_by(2).collect()
}

/// A decimal or hexadecimal number of the sources.
fn literal(text: &str) -> Option<usize> {
    match text.strip_prefix("0x") {
        Some(digits) => usize::from_str_radix(digits, 16).ok(),
        None => text.parse().ok(),
    }
}

/// The constants of this type in commands.rt that are plain numbers, with their names, in order.
pub fn constants(kind: &str) -> Vec<(&'static str, usize)> {
    let middle = format!(": {kind} = ");
    let lines = COMMANDS
        .lines()
        .filter_map(|line| line.strip_prefix("pub const "));
    let pairs = lines.filter_map(|line| line.strip_suffix(';')?.split_once(&middle));
    let numbers = pairs.filter_map(|(name, value)| Some((name, literal(value)?)));
    numbers.collect()
}

/// The lines of commands.rt between a head and the next line that closes a brace.
fn lines_behind(head: &str) -> impl Iterator<Item = &'static str> {
    let (_, body) = COMMANDS.split_once(head).expect("the head of an item");
    let lines = body.lines().skip(1).map(str::trim);
    lines.take_while(|line| !line.starts_with('}'))
}

/// The codes of the enum `Command` in commands.rt, by the document's names.
pub fn codes() -> Vec<(String, usize)> {
    let variants = lines_behind("pub enum Command {");
    let pairs = variants.map(|line| {
        line.trim_end_matches(',')
            .split_once(" = ")
            .expect("a variant with its code")
    });
    pairs
        .map(|(name, code)| (name.to_uppercase(), literal(code).expect("a code")))
        .collect()
}

/// The widths of `Command::width` in commands.rt, in the order of the codes.
pub fn widths() -> Vec<(String, usize)> {
    let arms: Vec<(&str, &str)> = lines_behind("        match self {")
        .map(|line| {
            line.trim_end_matches(',')
                .split_once(" => ")
                .expect("an arm")
        })
        .collect();
    let width = |name: &str| {
        let names = |arm: &str| {
            arm.split(" | ")
                .filter_map(|path| path.strip_prefix("Command::"))
                .any(|variant| variant.to_uppercase() == name)
        };
        let (_, width) = arms.iter().find(|(arm, _)| names(arm)).expect("an arm");
        number(width)
    };
    codes()
        .into_iter()
        .map(|(name, _)| {
            let width = width(&name);
            (name, width)
        })
        .collect()
}
