//! Numbers in text: floats that read back bit for bit, and whole numbers within limits.

use std::fmt::Display;
use std::str::FromStr;

/// What a reader is told that a float may be.
pub(crate) const FLOAT_FORMS: &str =
    "a number such as 4, -0.25 or 1e-6, or 0x and the 16 hexadecimal digits of its bits";

/// The shortest decimal that reads back as the same bits; a NaN by its bits.
#[must_use]
pub fn float_text(value: f64) -> String {
    if value.is_nan() {
        return format!("0x{:016x}", value.to_bits());
    }
    let text = format!("{value:?}");
    match text.strip_suffix(".0") {
        Some(whole) => whole.to_string(),
        None => text,
    }
}

/// The float with this text, or what was expected.
///
/// # Errors
///
/// In words: what a float may be, and what was found.
pub fn parse_float(text: &str) -> Result<f64, String> {
    if let Some(digits) = text.strip_prefix("0x") {
        return parse_bits(digits);
    }
    match text {
        "inf" => return Ok(f64::INFINITY),
        "-inf" => return Ok(f64::NEG_INFINITY),
        _ => {}
    }
    let plain = text
        .chars()
        .all(|c| c.is_ascii_digit() || "+-.eE".contains(c));
    let value = text.parse::<f64>().ok().filter(|_| plain);
    match value {
        Some(value) if value.is_infinite() => Err(format!("`{text}` is too large for a float")),
        Some(value) => Ok(value),
        None => Err(format!("expected {FLOAT_FORMS}, not `{text}`")),
    }
}

fn parse_bits(digits: &str) -> Result<f64, String> {
    let whole = digits.len() == 16 && digits.chars().all(|c| c.is_ascii_hexdigit());
    let bits = u64::from_str_radix(digits, 16).ok().filter(|_| whole);
    bits.map(f64::from_bits)
        .ok_or_else(|| format!("expected 16 hexadecimal digits after 0x, not `{digits}`"))
}

/// A whole number between two limits, or what was expected.
pub(crate) fn parse_whole<T>(text: &str, least: T, most: T) -> Result<T, String>
where
    T: FromStr + Display + PartialOrd,
{
    let plain = !text.starts_with('+');
    match text.parse::<T>() {
        Ok(value) if plain && value >= least && value <= most => Ok(value),
        _ => Err(format!(
            "expected a whole number from {least} to {most}, not `{text}`"
        )),
    }
}

#[cfg(test)]
mod tests {
    use super::*;

    fn survives(value: f64) {
        let text = float_text(value);
        let back = parse_float(&text).unwrap();
        assert_eq!(back.to_bits(), value.to_bits(), "{text}");
    }

    #[test]
    fn edges_survive() {
        for value in [
            0.0,
            -0.0,
            4.0,
            0.1,
            1e300,
            f64::MAX,
            f64::MIN_POSITIVE,
            5e-324,
            -5e-324,
        ] {
            survives(value);
        }
        survives(f64::INFINITY);
        survives(f64::NEG_INFINITY);
    }

    #[test]
    fn every_nan_survives() {
        for bits in [
            0x7ff8_0000_0000_0000,
            0xfff8_0000_0000_0001,
            0x7ff0_0000_0000_0001,
        ] {
            survives(f64::from_bits(bits));
        }
    }

    #[test]
    fn bits_of_any_kind_survive() {
        let mut bits = 1u64;
        for _ in 0..20_000 {
            bits = bits.wrapping_mul(0x9e37_79b9_7f4a_7c15).rotate_left(23) ^ 0x5851_f42d;
            survives(f64::from_bits(bits));
        }
    }

    #[test]
    fn whole_floats_are_short() {
        assert_eq!(float_text(4.0), "4");
        assert_eq!(float_text(-0.0), "-0");
    }

    #[test]
    fn bad_floats_say_what_was_expected() {
        for text in [
            "",
            "x",
            "nan",
            "NaN",
            "infinity",
            "1,5",
            "0x12",
            "0xg000000000000000",
            "1e",
            "--1",
        ] {
            assert!(
                parse_float(text).unwrap_err().starts_with("expected "),
                "{text}"
            );
        }
        assert_eq!(
            parse_float("1e999").unwrap_err(),
            "`1e999` is too large for a float"
        );
    }

    #[test]
    fn whole_numbers_keep_to_their_limits() {
        assert_eq!(parse_whole("15", 0u8, 15), Ok(15));
        assert_eq!(parse_whole("-3", i32::MIN, i32::MAX), Ok(-3));
        for text in ["16", "-1", "+1", "1.0", "", "300"] {
            let message = parse_whole(text, 0u8, 15).unwrap_err();
            assert_eq!(
                message,
                format!("expected a whole number from 0 to 15, not `{text}`")
            );
        }
    }
}
