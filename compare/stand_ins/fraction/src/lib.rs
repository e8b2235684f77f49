//! Stands for the crate `fraction`, as far as the compared files use it: a sign and a fraction of big whole numbers in lowest terms.
use std::cmp::Ordering;
use std::fmt;
use std::ops::Div;

pub use num_bigint::{BigInt, BigUint};
pub use num_integer::Integer;
use num_traits::{One, Zero};

#[derive(Debug, Clone, Copy, PartialEq, Eq, Hash)]
pub enum Sign {
    Plus,
    Minus,
}

#[derive(Debug, Clone, PartialEq, Eq, Hash)]
pub struct BigFraction {
    sign: Sign,
    numerator: BigUint,
    denominator: BigUint,
}

impl BigFraction {
    pub fn new(numerator: BigUint, denominator: BigUint) -> Self {
        Self::reduced(Sign::Plus, numerator, denominator)
    }

    /// The fraction in lowest terms. A denominator of one, as most have here, costs no common divisor.
    pub fn reduced(sign: Sign, numerator: BigUint, denominator: BigUint) -> Self {
        assert!(!denominator.is_zero(), "a denominator of 0");
        if denominator.is_one() {
            return Self::new_raw_signed(sign, numerator, denominator);
        }
        let common = numerator.gcd(&denominator);
        Self::new_raw_signed(sign, numerator / &common, denominator / &common)
    }

    /// The caller gives it in lowest terms.
    pub fn new_raw_signed(sign: Sign, numerator: BigUint, denominator: BigUint) -> Self {
        let sign = if numerator.is_zero() { Sign::Plus } else { sign };
        Self {
            sign,
            numerator,
            denominator,
        }
    }

    pub fn numer(&self) -> Option<&BigUint> {
        Some(&self.numerator)
    }

    pub fn denom(&self) -> Option<&BigUint> {
        Some(&self.denominator)
    }

    pub fn sign(&self) -> Option<Sign> {
        Some(self.sign)
    }

    pub fn is_sign_negative(&self) -> bool {
        self.sign == Sign::Minus
    }

    pub fn ceil(&self) -> Self {
        Self::whole(self.over_one().div_ceil(&BigInt::from(self.denominator.clone())))
    }

    pub fn floor(&self) -> Self {
        Self::whole(self.over_one().div_floor(&BigInt::from(self.denominator.clone())))
    }

    /// A whole number.
    pub fn whole(value: BigInt) -> Self {
        let sign = if value.sign() == num_bigint::Sign::Minus {
            Sign::Minus
        } else {
            Sign::Plus
        };
        Self::new_raw_signed(sign, value.magnitude().clone(), BigUint::one())
    }

    // The numerator with its sign.
    fn over_one(&self) -> BigInt {
        let magnitude = BigInt::from(self.numerator.clone());
        if self.is_sign_negative() {
            -magnitude
        } else {
            magnitude
        }
    }

    // The order of two magnitudes.
    fn cmp_magnitude(&self, other: &Self) -> Ordering {
        if self.denominator == other.denominator {
            self.numerator.cmp(&other.numerator)
        } else {
            (&self.numerator * &other.denominator).cmp(&(&other.numerator * &self.denominator))
        }
    }
}

/// Exactly the fraction that the float is.
impl From<f64> for BigFraction {
    fn from(value: f64) -> Self {
        assert!(value.is_finite());
        let bits = value.to_bits();
        let sign = if value.is_sign_negative() { Sign::Minus } else { Sign::Plus };
        let (field, low) = ((bits >> 52 & 0x7ff) as i64, bits & ((1 << 52) - 1));
        let (digits, exponent) = if field == 0 { (low, -1074) } else { (low | 1 << 52, field - 1075) };
        let power = BigUint::one() << exponent.unsigned_abs();
        if exponent < 0 {
            Self::reduced(sign, BigUint::from(digits), power)
        } else {
            Self::reduced(sign, BigUint::from(digits) * power, BigUint::one())
        }
    }
}

impl PartialOrd for BigFraction {
    fn partial_cmp(&self, other: &Self) -> Option<Ordering> {
        Some(self.cmp(other))
    }
}

impl Ord for BigFraction {
    fn cmp(&self, other: &Self) -> Ordering {
        match (self.sign, other.sign) {
            (Sign::Plus, Sign::Plus) => self.cmp_magnitude(other),
            (Sign::Minus, Sign::Minus) => other.cmp_magnitude(self),
            (Sign::Plus, Sign::Minus) => Ordering::Greater,
            (Sign::Minus, Sign::Plus) => Ordering::Less,
        }
    }
}

impl Div<BigFraction> for &BigFraction {
    type Output = BigFraction;

    fn div(self, other: BigFraction) -> BigFraction {
        let sign = if self.sign == other.sign { Sign::Plus } else { Sign::Minus };
        BigFraction::reduced(sign, &self.numerator * other.denominator, &self.denominator * other.numerator)
    }
}

impl std::ops::Mul for BigFraction {
    type Output = Self;

    fn mul(self, other: Self) -> Self {
        let sign = if self.sign == other.sign { Sign::Plus } else { Sign::Minus };
        Self::reduced(sign, self.numerator * other.numerator, self.denominator * other.denominator)
    }
}

impl One for BigFraction {
    fn one() -> Self {
        Self::new(BigUint::one(), BigUint::one())
    }

    fn is_one(&self) -> bool {
        self.sign == Sign::Plus && self.numerator.is_one() && self.denominator.is_one()
    }
}

/// Decimal digits, as many behind the point as the precision says. Only a debug assertion of the crate prints so.
impl fmt::Display for BigFraction {
    fn fmt(&self, f: &mut fmt::Formatter<'_>) -> fmt::Result {
        let places = f.precision().unwrap_or(0);
        let scaled = &self.numerator * BigUint::from(10u8).pow(places as u32) / &self.denominator;
        let digits = format!("{scaled:0>width$}", scaled = scaled.to_string(), width = places + 1);
        let (whole, part) = digits.split_at(digits.len() - places);
        let sign = if self.is_sign_negative() { "-" } else { "" };
        if places == 0 {
            write!(f, "{sign}{whole}")
        } else {
            write!(f, "{sign}{whole}.{part}")
        }
    }
}
