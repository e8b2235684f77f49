//! Stands for the crate's `jsonschema_value`, as far as the compared files use it; every answer is exact.
pub mod numeric_check {
    use crate::numeric::bignum::try_parse_bigfraction;
    use num_integer::Integer;
    use num_traits::Zero;
    use serde_json::Number;

    #[derive(Debug, Clone, Copy, PartialEq, Eq)]
    pub enum DivisorKind {
        Whole,
        WholeLossy,
        Fractional,
    }

    /// Whole exactly for a denominator of one. A text with no point is that of a whole number.
    pub fn divisor_kind(limit: &Number) -> DivisorKind {
        if !limit.as_str().contains('.') {
            return DivisorKind::Whole;
        }
        let value = try_parse_bigfraction(limit).expect("a decimal");
        if value.denom().is_some_and(num_traits::One::is_one) {
            DivisorKind::Whole
        } else {
            DivisorKind::Fractional
        }
    }

    /// Whether the value is a whole multiple of the limit. Two numbers of 64 bits are divided as such.
    pub fn satisfies_multiple_of(limit: &Number, value: &Number) -> bool {
        if let (Ok(limit), Some(value)) = (limit.as_str().parse::<u64>(), value.as_i64()) {
            return value.unsigned_abs() % limit == 0;
        }
        let (limit, value) = (
            try_parse_bigfraction(limit).expect("a decimal"),
            try_parse_bigfraction(value).expect("a decimal"),
        );
        let (p, q) = (limit.numer().unwrap(), limit.denom().unwrap());
        let (r, s) = (value.numer().unwrap(), value.denom().unwrap());
        (r * q).mod_floor(&(s * p)).is_zero()
    }
}

pub mod numeric {
    pub mod bignum {
        use fraction::{BigFraction, BigInt, BigUint, Sign};
        use num_traits::One;
        use serde_json::Number;

        pub fn try_parse_bigint(number: &Number) -> Option<BigInt> {
            number.as_str().parse().ok()
        }

        pub fn whole(value: BigInt) -> BigFraction {
            BigFraction::whole(value)
        }

        pub fn try_parse_bigfraction(number: &Number) -> Option<BigFraction> {
            let text = number.as_str();
            let (sign, magnitude) = match text.strip_prefix('-') {
                Some(magnitude) => (Sign::Minus, magnitude),
                None => (Sign::Plus, text),
            };
            let Some((whole, part)) = magnitude.split_once('.') else {
                return Some(BigFraction::reduced(sign, magnitude.parse().ok()?, BigUint::one()));
            };
            let digits = format!("{whole}{part}").parse().ok()?;
            Some(BigFraction::reduced(sign, digits, BigUint::from(10u8).pow(part.len() as u32)))
        }
    }
}
