//! Stands for `serde_json` with arbitrary precision, as far as the compared files use it: a number is its text.
use std::fmt;
use std::str::FromStr;

#[derive(Debug, Clone, PartialEq, Eq, Hash)]
pub struct Number(String);

impl Number {
    pub fn as_str(&self) -> &str {
        &self.0
    }

    pub fn from_string_unchecked(text: String) -> Self {
        Self(text)
    }

    pub fn as_i64(&self) -> Option<i64> {
        self.0.parse().ok()
    }

    pub fn is_i64(&self) -> bool {
        self.as_i64().is_some()
    }

    pub fn is_u64(&self) -> bool {
        self.0.parse::<u64>().is_ok()
    }

    /// The float next to the number; none where the number lies beyond all floats, or above the limit that is set.
    pub fn as_f64(&self) -> Option<f64> {
        if limit::is_above(&self.0) {
            return None;
        }
        self.0.parse::<f64>().ok().filter(|float| float.is_finite())
    }
}

/// A decimal: digits, with a minus sign before them and a point among them or without.
impl FromStr for Number {
    type Err = String;

    fn from_str(text: &str) -> Result<Self, String> {
        let magnitude = text.strip_prefix('-').unwrap_or(text);
        let (whole, part) = magnitude.split_once('.').unwrap_or((magnitude, "0"));
        let is_decimal = |digits: &str| !digits.is_empty() && digits.bytes().all(|b| b.is_ascii_digit());
        if is_decimal(whole) && is_decimal(part) {
            Ok(Self(text.to_owned()))
        } else {
            Err(format!("not a decimal: {text}"))
        }
    }
}

impl fmt::Display for Number {
    fn fmt(&self, f: &mut fmt::Formatter<'_>) -> fmt::Result {
        f.write_str(&self.0)
    }
}

impl From<i64> for Number {
    fn from(value: i64) -> Self {
        Self(value.to_string())
    }
}

impl From<u64> for Number {
    fn from(value: u64) -> Self {
        Self(value.to_string())
    }
}

/// A limit above which a number has no float, and so the crate no divisor: with it the crate's joins end where this repository's do.
pub mod limit {
    use std::sync::atomic::{AtomicBool, Ordering};

    static IS_SET: AtomicBool = AtomicBool::new(false);

    pub fn set(on: bool) {
        IS_SET.store(on, Ordering::Relaxed);
    }

    // Of a whole number: whether it is above 2^63 - 1. Others are not looked at: only joins of whole numbers pass the limit in a comparison.
    pub(crate) fn is_above(text: &str) -> bool {
        IS_SET.load(Ordering::Relaxed) && !text.contains('.') && text.parse::<u64>().map_or(true, |n| n > i64::MAX as u64)
    }
}
