//! Whole numbers as values of options.

use super::arguments::Arguments;

/// The option's number, where it is given.
pub fn number(arguments: &Arguments, name: &str) -> Result<Option<u64>, String> {
    let read = |text: &str| {
        let plain = text.chars().all(|c| c.is_ascii_digit());
        let number = text.parse().ok().filter(|_| plain);
        number.ok_or_else(|| format!("expected a whole number behind `{name}`, not `{text}`"))
    };
    arguments.value(name).map(read).transpose()
}

/// The option's number, which must be given.
pub fn needed(arguments: &Arguments, name: &str) -> Result<u64, String> {
    number(arguments, name)?.ok_or_else(|| format!("`{name}` and a whole number are missing"))
}
