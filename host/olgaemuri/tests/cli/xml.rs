//! A small reader of XML, strict enough to find what is not well formed.

use std::collections::BTreeMap;

#[derive(Clone, Debug, Default, PartialEq)]
pub struct Element {
    pub name: String,
    pub attributes: BTreeMap<String, String>,
    pub children: Vec<Element>,
    /// The text directly in it.
    pub text: String,
}

impl Element {
    /// All elements with this class, itself among them.
    pub fn with_class(&self, class: &str) -> Vec<&Element> {
        let own = self
            .attributes
            .get("class")
            .is_some_and(|found| found == class);
        let below = self
            .children
            .iter()
            .flat_map(|child| child.with_class(class));
        own.then_some(self).into_iter().chain(below).collect()
    }

    pub fn child(&self, name: &str) -> &Element {
        self.children
            .iter()
            .find(|child| child.name == name)
            .unwrap()
    }
}

/// Reads a whole document with one root, or says what is wrong with it.
pub fn parse(text: &str) -> Result<Element, String> {
    let mut rest = text;
    let root = element(&mut rest)?;
    if rest.trim().is_empty() {
        Ok(root)
    } else {
        Err(wrong("the end", rest))
    }
}

fn wrong(expected: &str, rest: &str) -> String {
    let near: String = rest.chars().take(30).collect();
    format!("expected {expected} at `{near}`")
}

fn eats(rest: &mut &str, word: &str) -> Result<(), String> {
    *rest = rest.strip_prefix(word).ok_or_else(|| wrong(word, rest))?;
    Ok(())
}

fn name(rest: &mut &str) -> Result<String, String> {
    let end = rest
        .find(|c: char| !(c.is_ascii_alphanumeric() || "-_:".contains(c)))
        .unwrap_or(rest.len());
    let (name, after) = rest.split_at(end);
    if !name.starts_with(|c: char| c.is_ascii_alphabetic()) {
        return Err(wrong("a name", rest));
    }
    *rest = after;
    Ok(name.to_string())
}

fn element(rest: &mut &str) -> Result<Element, String> {
    eats(rest, "<")?;
    let mut found = Element {
        name: name(rest)?,
        ..Element::default()
    };
    while rest.starts_with(char::is_whitespace) {
        *rest = rest.trim_start();
        attribute(rest, &mut found.attributes)?;
    }
    if rest.starts_with("/>") {
        eats(rest, "/>")?;
        return Ok(found);
    }
    eats(rest, ">")?;
    content(rest, &mut found)?;
    Ok(found)
}

fn attribute(rest: &mut &str, attributes: &mut BTreeMap<String, String>) -> Result<(), String> {
    if rest.starts_with(['/', '>']) {
        return Ok(());
    }
    let name = name(rest)?;
    eats(rest, "=\"")?;
    let (value, after) = rest
        .split_once('"')
        .ok_or_else(|| wrong("a closing quote", rest))?;
    *rest = after;
    if attributes.insert(name.clone(), unescaped(value)?).is_some() {
        return Err(format!("attribute {name} stands twice"));
    }
    Ok(())
}

fn content(rest: &mut &str, parent: &mut Element) -> Result<(), String> {
    loop {
        let place = rest.find('<').ok_or_else(|| wrong("a closing tag", rest))?;
        let (text, after) = rest.split_at(place);
        parent.text += &unescaped(text)?;
        *rest = after;
        if rest.starts_with("</") {
            return eats(rest, &format!("</{}>", parent.name));
        }
        parent.children.push(element(rest)?);
    }
}

/// Text without entities. Nothing that XML forbids may stand in it.
fn unescaped(text: &str) -> Result<String, String> {
    let is_forbidden = |c: char| c == '<' || (c < ' ' && !"\n\r\t".contains(c));
    if text.contains(is_forbidden) {
        return Err(wrong("no forbidden character", text));
    }
    let mut out = String::new();
    let mut rest = text;
    while let Some((before, after)) = rest.split_once('&') {
        let (entity, behind) = after
            .split_once(';')
            .ok_or_else(|| wrong("an entity", after))?;
        let meant = match entity {
            "amp" => '&',
            "lt" => '<',
            "gt" => '>',
            "quot" => '"',
            _ => return Err(wrong("a known entity", after)),
        };
        out += before;
        out.push(meant);
        rest = behind;
    }
    Ok(out + rest)
}

#[test]
fn the_reader_finds_what_is_wrong() {
    for text in [
        "",
        "<a>",
        "<a></b>",
        "<a b=1/>",
        "<a b=\"1\" b=\"2\"/>",
        "<a>&x;</a>",
        "<a/><b/>",
        "<a b=\"<\"/>",
        "<a>\u{1}</a>",
    ] {
        assert!(parse(text).is_err(), "{text}");
    }
    let root = parse("<a x=\"&quot;1\"><b class=\"k\"/>t&amp;<c>u</c></a>\n").unwrap();
    assert_eq!(root.attributes["x"], "\"1");
    assert_eq!((root.text.as_str(), root.with_class("k").len()), ("t&", 1));
    assert_eq!(root.child("c").text, "u");
}
