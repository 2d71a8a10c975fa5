//! The table of refusals, against the definitions' numbers and this crate's.

use crate::document::{number, table};
use olgaemuri::Refusal;

/// Every refusal with its number, as the definitions have it, in the order of checking.
const DEFINITIONS: &str = include_str!("../../../../crates/hazards/specs/Refusals.antt");

/// The names and numbers of the definitions that are plain decimal numbers, of no argument.
fn definitions() -> Vec<(&'static str, usize)> {
    let lines = DEFINITIONS
        .lines()
        .filter_map(|line| line.split_once(" = "));
    let named = lines.filter(|(name, _)| !name.contains(' '));
    let numbers = named.filter_map(|(name, value)| Some((name, value.parse().ok()?)));
    numbers.collect()
}

fn rows() -> Vec<Vec<&'static str>> {
    table("| what is tested | no. | Rust | `specs/` | refused where |")
}

#[test]
fn numbers_and_order_are_the_definitions() {
    let mut named: Vec<(&str, usize)> = Vec::new();
    for row in rows() {
        let refusal = (row[3], number(row[1]));
        if !named.contains(&refusal) {
            named.push(refusal);
        }
    }
    assert_eq!(named, definitions());
}

#[test]
fn names_are_the_crate_s() {
    let mut named = Vec::new();
    for row in rows() {
        let refusal = Refusal::from_number(number(row[1]) as u8).expect("a refusal");
        assert_eq!(row[2], format!("{refusal:?}"));
        named.push(refusal);
    }
    named.sort();
    named.dedup();
    assert_eq!(named, Refusal::ALL);
}

/// 3 has two rows: no byte, before 2, and a command cut short, behind it.
#[test]
fn only_3_has_two_rows() {
    let numbers: Vec<usize> = rows().iter().map(|row| number(row[1])).collect();
    let expected = [1, 3, 2].into_iter().chain(3..=18).chain([23, 24]);
    assert_eq!(numbers, expected.collect::<Vec<_>>());
}
