//! Exact stand-ins for the crate's reading of numbers.

/// The shortest text of a decimal, where that is another.
pub(crate) fn canonical_number(text: &str) -> Option<String> {
    let shorter = if text.contains('.') {
        text.trim_end_matches('0').trim_end_matches('.')
    } else {
        text
    };
    let shorter = if shorter == "-0" { "0" } else { shorter };
    (shorter != text).then(|| shorter.to_owned())
}

/// The whole number that a float is, where it has 64 bits.
pub(crate) fn integer_valued_i64(float: f64) -> Option<i64> {
    let fits = float.fract() == 0.0 && (-(2f64.powi(63))..2f64.powi(63)).contains(&float);
    fits.then_some(float as i64)
}

pub(crate) fn integer_valued_u64(float: f64) -> Option<u64> {
    let fits = float.fract() == 0.0 && (0.0..2f64.powi(64)).contains(&float);
    fits.then_some(float as u64)
}
