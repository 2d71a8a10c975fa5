//! Citations of document 01 find a section, links a file, and no line is too long.

use crate::document::TEXT;
use std::fs;
use std::path::{Path, PathBuf};

fn root() -> PathBuf {
    Path::new(env!("CARGO_MANIFEST_DIR")).join("../..")
}

/// The files with this ending below a folder.
fn files(folder: &Path, ending: &str) -> Vec<PathBuf> {
    let entries = fs::read_dir(folder)
        .expect("a folder")
        .map(|entry| entry.expect("an entry").path());
    let (folders, files): (Vec<PathBuf>, Vec<PathBuf>) = entries.partition(|path| path.is_dir());
    let here = files
        .into_iter()
        .filter(|path| path.extension().is_some_and(|e| e == ending));
    here.chain(
        folders
            .iter()
            .flat_map(|folder| self::files(folder, ending)),
    )
    .collect()
}

/// Document 01's sections that a text cites: what stands in quotes behind its name and begins with a capital.
fn cited(text: &str) -> Vec<String> {
    let lines = text
        .lines()
        .filter_map(|line| line.split_once("ocument 01"));
    let quoted = lines.flat_map(|(_, rest)| rest.split('"').skip(1).step_by(2));
    quoted
        .filter(|name| name.starts_with(char::is_uppercase))
        .map(str::to_string)
        .collect()
}

#[test]
fn every_citation_finds_its_section() {
    let headings: Vec<&str> = TEXT
        .lines()
        .filter_map(|line| line.strip_prefix("## "))
        .collect();
    let mut seen = Vec::new();
    for (folder, ending) in [
        ("crates", "antt"),
        ("crates", "rt"),
        ("host/olgaemuri/src", "rs"),
    ] {
        for file in files(&root().join(folder), ending) {
            for name in cited(&fs::read_to_string(&file).expect("text")) {
                let found = headings.iter().any(|heading| heading.starts_with(&name));
                assert!(found, "{} cites \"{name}\"", file.display());
                seen.push(name);
            }
        }
    }
    seen.sort();
    seen.dedup();
    assert!(seen.len() >= 10, "{seen:?}");
}

#[test]
fn links_lead_to_files_and_sections() {
    let slug = |heading: &str| -> String {
        let kept = heading
            .chars()
            .filter(|c| c.is_alphanumeric() || "- _".contains(*c));
        kept.collect::<String>().to_lowercase().replace(' ', "-")
    };
    let headings = TEXT.lines().filter_map(|line| line.strip_prefix("## "));
    let slugs: Vec<String> = headings.map(slug).collect();
    let links: Vec<&str> = TEXT
        .split("](")
        .skip(1)
        .filter_map(|rest| rest.split(')').next())
        .collect();
    assert!(links.len() > 15);
    for link in links {
        match link.strip_prefix('#') {
            Some(section) => assert!(slugs.iter().any(|slug| slug == section), "{link}"),
            None => assert!(root().join("docs").join(link).is_file(), "{link}"),
        }
    }
}

#[test]
fn no_line_is_beyond_140_columns() {
    for line in TEXT.lines() {
        assert!(line.chars().count() <= 140, "{line}");
    }
}
