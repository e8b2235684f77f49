//! The compared files in their places, and stand-ins for what they name of the crate around them.
#![allow(dead_code, unused_imports)]

pub(crate) mod json;

pub(crate) mod ir {
    pub(crate) use super::bound_number::BoundNumber;
    pub(crate) use bound_integer::{BoundInteger, Round};
    pub(crate) use bound_rational::BoundRational;
    pub(crate) use divisors::{Divisors, ExcludedDivisors};
    pub(crate) use integer_leaves::IntegerLeaves;
    use serde_json::Number;

    // The four files whole, and the parts of the fifth.
    include!(concat!(env!("OUT_DIR"), "/ir.rs"));
}

mod bound_number {
    use serde_json::Number;

    /// A bound of real numbers: only functions that no comparison calls name it.
    #[derive(Debug, Clone)]
    pub(crate) struct BoundNumber {
        limit: Number,
        inclusive: bool,
    }

    impl BoundNumber {
        pub(crate) fn new(limit: &Number, inclusive: bool) -> Self {
            Self {
                limit: limit.clone(),
                inclusive,
            }
        }

        pub(crate) fn to_number(&self) -> Number {
            self.limit.clone()
        }

        pub(crate) fn is_inclusive(&self) -> bool {
            self.inclusive
        }
    }
}
