//! A small reader of JSON, strict enough to find what is not well formed.

use std::collections::BTreeMap;

#[derive(Clone, Debug, PartialEq)]
pub enum Value {
    Null,
    Bool(bool),
    Number(f64),
    String(String),
    Array(Vec<Value>),
    Object(BTreeMap<String, Value>),
}

impl Value {
    pub fn get(&self, name: &str) -> &Value {
        match self {
            Self::Object(fields) => &fields[name],
            other => panic!("{other:?} has no field {name}"),
        }
    }

    pub fn array(&self) -> &[Value] {
        match self {
            Self::Array(values) => values,
            other => panic!("{other:?} is no array"),
        }
    }

    pub fn text(&self) -> &str {
        match self {
            Self::String(text) => text,
            other => panic!("{other:?} is no string"),
        }
    }

    pub fn number(&self) -> f64 {
        match self {
            Self::Number(number) => *number,
            other => panic!("{other:?} is no number"),
        }
    }

    pub fn is_true(&self) -> bool {
        match self {
            Self::Bool(flag) => *flag,
            other => panic!("{other:?} is no flag"),
        }
    }
}

/// Reads a whole text, or says what is wrong with it.
pub fn parse(text: &str) -> Result<Value, String> {
    let mut reader = Reader { rest: text };
    let value = reader.value()?;
    reader.space();
    if reader.rest.is_empty() {
        Ok(value)
    } else {
        Err(reader.wrong("the end"))
    }
}

struct Reader<'a> {
    rest: &'a str,
}

impl Reader<'_> {
    fn wrong(&self, expected: &str) -> String {
        let near: String = self.rest.chars().take(20).collect();
        format!("expected {expected} at `{near}`")
    }

    fn space(&mut self) {
        self.rest = self.rest.trim_start_matches([' ', '\n', '\r', '\t']);
    }

    fn eats(&mut self, word: &str) -> bool {
        self.space();
        let rest = self.rest.strip_prefix(word);
        self.rest = rest.unwrap_or(self.rest);
        rest.is_some()
    }

    fn value(&mut self) -> Result<Value, String> {
        let words = [
            ("null", Value::Null),
            ("true", Value::Bool(true)),
            ("false", Value::Bool(false)),
        ];
        for (word, value) in words {
            if self.eats(word) {
                return Ok(value);
            }
        }
        match self.rest.chars().next() {
            Some('"') => self.string().map(Value::String),
            Some('[') => self.array(),
            Some('{') => self.object(),
            _ => self.number(),
        }
    }

    fn array(&mut self) -> Result<Value, String> {
        let mut values = Vec::new();
        self.eats("[");
        if self.eats("]") {
            return Ok(Value::Array(values));
        }
        loop {
            values.push(self.value()?);
            if self.eats("]") {
                return Ok(Value::Array(values));
            }
            if !self.eats(",") {
                return Err(self.wrong("a comma or ]"));
            }
        }
    }

    fn object(&mut self) -> Result<Value, String> {
        let mut fields = BTreeMap::new();
        self.eats("{");
        if self.eats("}") {
            return Ok(Value::Object(fields));
        }
        loop {
            self.space();
            let name = self.string()?;
            if !self.eats(":") {
                return Err(self.wrong("a colon"));
            }
            if fields.insert(name.clone(), self.value()?).is_some() {
                return Err(format!("{name} stands twice"));
            }
            if self.eats("}") {
                return Ok(Value::Object(fields));
            }
            if !self.eats(",") {
                return Err(self.wrong("a comma or }"));
            }
        }
    }

    fn string(&mut self) -> Result<String, String> {
        let inner = self
            .rest
            .strip_prefix('"')
            .ok_or_else(|| self.wrong("a string"))?;
        let mut text = String::new();
        let mut characters = inner.char_indices();
        while let Some((at, c)) = characters.next() {
            match c {
                '"' => {
                    self.rest = &inner[at + 1..];
                    return Ok(text);
                }
                '\\' => text.push(escape(&mut characters)?),
                c if c < ' ' => return Err(format!("a control character {c:?} in a string")),
                c => text.push(c),
            }
        }
        Err(self.wrong("the end of the string"))
    }

    /// JSON's own grammar of numbers: no leading zeros, digits around the point.
    fn number(&mut self) -> Result<Value, String> {
        let end = self
            .rest
            .find(|c: char| !(c.is_ascii_digit() || "+-.eE".contains(c)));
        let (text, rest) = self.rest.split_at(end.unwrap_or(self.rest.len()));
        let digits = text.strip_prefix('-').unwrap_or(text);
        let (mantissa, _) = digits.split_once(['e', 'E']).unwrap_or((digits, ""));
        let (whole, fraction) = mantissa.split_once('.').unwrap_or((mantissa, "0"));
        let is_plain = |part: &str| !part.is_empty() && part.chars().all(|c| c.is_ascii_digit());
        let is_good =
            is_plain(whole) && is_plain(fraction) && (whole == "0" || !whole.starts_with('0'));
        let number = text.parse::<f64>().ok().filter(|_| is_good);
        let number = number.ok_or_else(|| self.wrong("a value"))?;
        self.rest = rest;
        Ok(Value::Number(number))
    }
}

fn escape(characters: &mut impl Iterator<Item = (usize, char)>) -> Result<char, String> {
    let mut next = || characters.next().map(|pair| pair.1);
    match next() {
        Some(c @ ('"' | '\\' | '/')) => Ok(c),
        Some('n') => Ok('\n'),
        Some('t') => Ok('\t'),
        Some('u') => {
            let digits: String = (0..4).filter_map(|_| next()).collect();
            let code = u32::from_str_radix(&digits, 16)
                .ok()
                .filter(|_| digits.len() == 4);
            code.and_then(char::from_u32)
                .ok_or(format!("a bad escape \\u{digits}"))
        }
        other => Err(format!("a bad escape {other:?}")),
    }
}

#[test]
fn the_reader_finds_what_is_wrong() {
    for text in [
        "",
        "{",
        "[1,]",
        "{\"a\" 1}",
        "[01]",
        "[1.]",
        "\"\n\"",
        "\"\\x\"",
        "{} 1",
        "{\"a\":1,\"a\":2}",
        "nan",
        "[+1]",
    ] {
        assert!(parse(text).is_err(), "{text}");
    }
    let value = parse(
        " {\"a\": [1, -2.5e3, \"x\\u0041\\\"\"], \"b\": null, \"c\": {}, \"d\": [], \"e\": true} ",
    )
    .unwrap();
    assert_eq!(value.get("a").array()[1], Value::Number(-2500.0));
    assert_eq!(value.get("a").array()[2].text(), "xA\"");
}
