//! Leaves as written, which both sides are given.
use std::fmt;

/// A divisor p/q as written.
#[derive(Debug, Clone, Copy, PartialEq, Eq)]
#[repr(C)]
pub struct Fraction {
    pub p: u64,
    pub q: u64,
}

impl fmt::Display for Fraction {
    fn fmt(&self, f: &mut fmt::Formatter<'_>) -> fmt::Result {
        match self.q {
            1 => write!(f, "{}", self.p),
            q => write!(f, "{}/{q}", self.p),
        }
    }
}

/// A window; an absent bound bounds nothing.
#[derive(Debug, Clone, Copy, PartialEq, Eq)]
pub struct Window {
    pub minimum: Option<i64>,
    pub maximum: Option<i64>,
}

/// An amount leaf as written.
#[derive(Debug, Clone)]
pub struct Leaf {
    pub window: Window,
    pub required: Vec<Fraction>,
    pub barred: Vec<Fraction>,
}

/// A list of divisors, a dash for none.
pub fn list_text(list: &[impl fmt::Display]) -> String {
    if list.is_empty() {
        return "-".to_owned();
    }
    list.iter().map(ToString::to_string).collect::<Vec<_>>().join(",")
}

/// A bound, a star for none.
pub fn bound_text(bound: Option<impl fmt::Display>) -> String {
    bound.map_or("*".to_owned(), |bound| bound.to_string())
}

impl fmt::Display for Leaf {
    fn fmt(&self, f: &mut fmt::Formatter<'_>) -> fmt::Result {
        let Window { minimum, maximum } = self.window;
        write!(
            f,
            "{} {} {} {}",
            bound_text(minimum),
            bound_text(maximum),
            list_text(&self.required),
            list_text(&self.barred)
        )
    }
}
