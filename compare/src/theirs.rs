//! The crate's code.
use crate::canonical::ir::{BoundInteger, BoundRational, Bounds, Discrete, Divisors, ExcludedDivisors, IntegerLeaf, IntegerLeaves};
use crate::days;
use crate::leaf::{bound_text, list_text, Fraction, Leaf, Window};
use serde_json::Number;

/// A divisor's decimal, with which the crate writes it. Its denominator has no primes but 2 and 5.
fn decimal(f: Fraction) -> Number {
    let common = gcd(f.p, f.q);
    let (p, q) = (u128::from(f.p / common), u128::from(f.q / common));
    let (mut scale, mut places) = (1u128, 0);
    while scale % q != 0 {
        scale *= 10;
        places += 1;
    }
    let digits = (p * (scale / q)).to_string();
    let text = if places == 0 {
        digits
    } else {
        let padded = format!("{digits:0>width$}", width = places + 1);
        let (whole, part) = padded.split_at(padded.len() - places);
        format!("{whole}.{part}")
    };
    text.parse().expect("a decimal")
}

pub fn gcd(a: u64, b: u64) -> u64 {
    if b == 0 {
        a
    } else {
        gcd(b, a % b)
    }
}

/// A decimal as p/q in lowest terms, which is how this repository writes it.
fn fraction_text(number: &Number) -> String {
    let Some((whole, part)) = number.as_str().split_once('.') else {
        return number.to_string();
    };
    let (mut p, mut q) = (
        format!("{whole}{part}").parse::<u128>().expect("digits"),
        10u128.pow(part.len() as u32),
    );
    for prime in [2, 5] {
        while p % prime == 0 && q % prime == 0 {
            p /= prime;
            q /= prime;
        }
    }
    if q == 1 {
        p.to_string()
    } else {
        format!("{p}/{q}")
    }
}

fn divisor(f: Fraction) -> BoundRational {
    BoundRational::new(&decimal(f)).expect("a divisor with a float")
}

fn required(list: &[Fraction]) -> Divisors {
    let set = list.iter().map(|f| Divisors::one(divisor(*f))).reduce(Divisors::intersect);
    set.unwrap_or_default().over_integers()
}

fn barred(list: &[Fraction]) -> ExcludedDivisors {
    list.iter()
        .map(|f| ExcludedDivisors::one(divisor(*f)))
        .reduce(ExcludedDivisors::intersect)
        .unwrap_or_default()
}

fn bound(value: i64) -> BoundInteger {
    BoundInteger::from_number(&Number::from(value)).expect("an integer")
}

/// A leaf of the crate, from numbers.
pub fn leaf_of(leaf: &Leaf) -> IntegerLeaf {
    let Window { minimum, maximum } = leaf.window;
    IntegerLeaf {
        bounds: Bounds {
            minimum: minimum.map(bound),
            maximum: maximum.map(bound),
        },
        multiple_of: required(&leaf.required),
        not_multiple_of: barred(&leaf.barred),
    }
}

fn divisors_text(list: &[BoundRational]) -> String {
    list_text(&list.iter().map(|d| fraction_text(&d.to_number())).collect::<Vec<_>>())
}

/// The folded list of required divisors as text.
pub fn fold(written: &[Fraction]) -> String {
    divisors_text(required(written).as_slice())
}

/// The thinned list of barred divisors as text.
pub fn thin(written: &[Fraction]) -> String {
    divisors_text(barred(written).as_slice())
}

/// A line's text, as this repository writes it.
fn line_text(line: &IntegerLeaf) -> String {
    let bound = |bound: &Option<BoundInteger>| bound_text(bound.as_ref().map(BoundInteger::to_number));
    let (low, high) = (bound(&line.bounds.minimum), bound(&line.bounds.maximum));
    format!(
        "{low} {high} {} {}\n",
        divisors_text(line.multiple_of.as_slice()),
        divisors_text(line.not_multiple_of.as_slice())
    )
}

/// A list of the crate: its leaves as they came, and its lines.
pub struct Read {
    leaves: Vec<IntegerLeaf>,
    lines: Vec<IntegerLeaf>,
}

/// Whether one of the leaves admits the value.
pub fn any_admits(leaves: &[IntegerLeaf], value: &BoundInteger, number: &Number) -> bool {
    leaves
        .iter()
        .any(|leaf| leaf.bounds.contains(value) && leaf.multiple_of.divide(number) && !leaf.not_multiple_of.bars(number))
}

impl Read {
    /// All leaves are inserted, then comes a reading.
    pub fn of(leaves: &[Leaf]) -> Self {
        let leaves: Vec<IntegerLeaf> = leaves.iter().map(leaf_of).collect();
        let mut list = IntegerLeaves::default();
        for leaf in &leaves {
            list.insert(leaf.clone());
        }
        Self {
            leaves,
            lines: list.as_slice().to_vec(),
        }
    }

    /// The lines as text.
    pub fn text(&self) -> String {
        self.lines.iter().map(line_text).collect()
    }

    /// Whether a leaf admits the value; with `read` whether a line does.
    pub fn admits(&self, value: i64, read: bool) -> bool {
        any_admits(if read { &self.lines } else { &self.leaves }, &bound(value), &Number::from(value))
    }
}

/// The lines of leaves with a reading behind each that the text marks so.
pub fn lines_with_readings(leaves: &[(Leaf, bool)]) -> String {
    let mut list = IntegerLeaves::default();
    for (leaf, is_read) in leaves {
        list.insert(leaf_of(leaf));
        if *is_read {
            list.as_slice();
        }
    }
    list.as_slice().iter().map(line_text).collect()
}

/// A day, by its number.
#[derive(Debug, Clone, PartialEq, Eq, PartialOrd, Ord)]
struct Day(i64);

impl Discrete for Day {
    fn checked_increment(self) -> Option<Self> {
        (self.0 < days::LAST).then(|| Day(self.0 + 1))
    }
}

/// The windows of days of one set merged by the crate, as lines of days.
pub fn merge_days(windows: &[Window], set: u8) -> String {
    let windows = windows
        .iter()
        .map(|w| Bounds {
            minimum: w.minimum.map(Day),
            maximum: w.maximum.map(Day),
        })
        .collect();
    let is_vacant = |end: &Day, start: &Day| (end.0 + 1..start.0).all(|day| !days::is_in(set, day));
    let text = |day: &Option<Day>| bound_text(day.as_ref().map(|day| days::date_text(day.0)));
    Bounds::merge_all_across_vacant_gaps(windows, is_vacant)
        .iter()
        .map(|w| format!("{} {} {}\n", text(&w.minimum), text(&w.maximum), days::weekdays_text(set)))
        .collect()
}
