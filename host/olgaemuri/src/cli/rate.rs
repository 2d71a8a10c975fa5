//! `olgaemuri rate`: the constant rate for a breakdown on a known day.

use super::arguments::{Arguments, Known};
use super::files::write;
use super::json::{maybe, number, object};
use super::nearest_rates::{MOST, nearest_rates};
use super::{Failure, help, tell};
use olgaemuri::text::{cut, float_text, parse_float};
use olgaemuri::{Refusal, rate_for_wait};

pub const OPTIONS: [Known; 2] = [Known::flag("--json"), Known::flag("--help")];

/// What is asked: which rate uses up the threshold after the wait.
struct Asked<'a> {
    /// The two as they were written.
    words: [&'a str; 2],
    threshold: f64,
    wait: f64,
}

/// Exits with 1 where no rate gives the wait, with 2 where threshold or wait is outside its limits. As JSON each is an object.
pub fn rate(arguments: &Arguments) -> Result<u8, Failure> {
    let words: Vec<&str> = arguments.files.iter().map(String::as_str).collect();
    let asked = Asked::read(&words).map_err(|message| Failure::usage(&message, help::RATE))?;
    let found = rate_for_wait(asked.threshold, asked.wait);
    let json = arguments.has("--json");
    if json {
        write("-", (asked.json(found) + "\n").as_bytes())?;
    }
    match found {
        Err(Refusal::OutsideLimits) => return Err(Failure(asked.told(found))),
        _ if json => {}
        Ok(_) => write("-", (asked.told(found) + "\n").as_bytes())?,
        Err(_) => tell(&asked.told(found)),
    }
    Ok(u8::from(found.is_err()))
}

/// The rate, or why there is none, for one who types a session. A comment may follow.
pub fn told(words: &[&str]) -> String {
    let end = words.iter().position(|word| word.starts_with('#'));
    match Asked::read(&words[..end.unwrap_or(words.len())]) {
        Ok(asked) => asked.told(rate_for_wait(asked.threshold, asked.wait)),
        Err(message) => message,
    }
}

impl<'a> Asked<'a> {
    /// What the words ask, or what is wrong with them.
    fn read(words: &[&'a str]) -> Result<Self, String> {
        let [threshold, wait] = words else {
            return Err("`rate` takes THRESHOLD and WAIT".to_string());
        };
        let read = |name, word| parse_float(word).map_err(|message| format!("{name}: {message}"));
        Ok(Self {
            words: [threshold, wait],
            threshold: read("THRESHOLD", threshold)?,
            wait: read("WAIT", wait)?,
        })
    }

    /// The rate, or why there is none.
    fn told(&self, found: Result<f64, Refusal>) -> String {
        match found {
            Ok(rate) => float_text(rate),
            Err(Refusal::NoRate) => self.none(),
            Err(refusal) => self.outside(refusal),
        }
    }

    /// Which of the two is outside its limits, and what these are.
    fn outside(&self, refusal: Refusal) -> String {
        let [threshold, wait] = self.words.map(|word| cut(word, 60));
        let mut told = Vec::new();
        if !(self.threshold > 0.0 && self.threshold <= 1024.0) {
            told.push(format!(
                "THRESHOLD must be above 0 and at most 1024, not {threshold}"
            ));
        }
        if !(1.0 / MOST..=MOST).contains(&self.wait) {
            told.push(format!("WAIT must be from 2^-40 to 2^40, not {wait}"));
        }
        format!("refused by {}: {}", refusal.number(), told.join("; "))
    }

    /// That there is no rate, and which are the nearest.
    fn none(&self) -> String {
        let (longer, shorter) = nearest_rates(self.threshold, self.wait);
        let nearest = |which: &str, rate: f64| {
            let (rate, wait) = (float_text(rate), float_text(self.threshold / rate));
            format!("the {which}: {rate} waits {wait}")
        };
        let longer = longer.map(|rate| nearest("largest that waits longer", rate));
        let shorter = shorter.map(|rate| nearest("smallest that waits shorter", rate));
        format!(
            "no rate up to 2^40 gives exactly the wait {} for the threshold {} (refusal {})\n{}\n{}",
            float_text(self.wait),
            float_text(self.threshold),
            Refusal::NoRate.number(),
            longer.as_deref().unwrap_or("no rate waits longer"),
            shorter
                .as_deref()
                .unwrap_or("no rate up to 2^40 waits shorter"),
        )
    }

    /// The answer as one object. Where no rate gives the wait, the nearest are in it.
    fn json(&self, found: Result<f64, Refusal>) -> String {
        let (longer, shorter) = match found {
            Err(Refusal::NoRate) => nearest_rates(self.threshold, self.wait),
            _ => (None, None),
        };
        let with_wait = |rate: f64| {
            let wait = number(self.threshold / rate);
            object(&[("rate", number(rate)), ("wait", wait)])
        };
        let refused = found.err().map_or(0, Refusal::number);
        object(&[
            ("number", refused.to_string()),
            ("threshold", number(self.threshold)),
            ("wait", number(self.wait)),
            ("rate", maybe(found.ok(), number)),
            ("longer", maybe(longer, with_wait)),
            ("shorter", maybe(shorter, with_wait)),
        ])
    }
}
