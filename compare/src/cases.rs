//! Random cases on the domain that both sides share: minimum at most maximum, denominators of 2s and 5s only, no numerator or denominator,
//! written or joined, above 2^53, all inserts before the first reading.
use crate::days;
use crate::leaf::{Fraction, Leaf, Window};
use crate::random::Random;
use crate::theirs::gcd;

const LIMIT: u64 = 1 << 53;

/// Denominators of 2s and 5s.
const DENOMINATORS: [u64; 12] = [1, 1, 1, 1, 2, 4, 5, 8, 10, 20, 25, 100];

/// A number up to `high`, small ones as often as large ones.
fn any_size(random: &mut Random, high: u64) -> u64 {
    let bits = 1 + random.below(u64::from(high.ilog2()) + 1) as u32;
    let n = 1 + random.below(1u64.checked_shl(bits).unwrap_or(u64::MAX));
    n.min(high)
}

/// A divisor: mostly of small numbers, so that divisors of a list have much in common.
fn divisor(random: &mut Random) -> Fraction {
    let p = match random.below(8) {
        0 => any_size(random, LIMIT),
        1 => any_size(random, 1 << 20),
        2 => 1 + random.below(200),
        _ => *random.pick(&[
            1, 2, 3, 4, 5, 6, 7, 8, 9, 10, 12, 14, 15, 18, 20, 21, 24, 25, 28, 30, 36, 50, 60, 100,
        ]),
    };
    Fraction {
        p,
        q: *random.pick(&DENOMINATORS),
    }
}

/// Whether no join of the list passes the limit: each join's numerator divides the least common multiple of them all.
fn joins_are_small(list: &[Fraction]) -> bool {
    let mut all = 1u128;
    for f in list {
        let p = u128::from(f.p / gcd(f.p, f.q));
        all = all / u128::from(gcd(all as u64, p as u64)) * p;
        if all > u128::from(LIMIT) {
            return false;
        }
    }
    true
}

/// A list as written, of at most six divisors, whose joins are on the domain.
pub fn list(random: &mut Random) -> Vec<Fraction> {
    loop {
        let count = *random.pick(&[0, 0, 1, 1, 1, 1, 2, 2, 2, 3, 3, 4, 5, 6]);
        let list: Vec<Fraction> = (0..count).map(|_| divisor(random)).collect();
        if joins_are_small(&list) {
            return list;
        }
    }
}

/// A list as written of whole divisors of up to 63 bits, which have joins or not.
pub fn large_list(random: &mut Random) -> Vec<Fraction> {
    let count = 1 + random.below(6);
    let primes = [2u64, 3, 5, 7, 11, 13, 1_000_003, 2_147_483_647, 3_037_000_493];
    (0..count)
        .map(|_| {
            let mut p = if random.one_in(4) { any_size(random, i64::MAX as u64) } else { 1 };
            for _ in 0..random.below(16) {
                let more = p.saturating_mul(*random.pick(&primes));
                p = if more <= i64::MAX as u64 { more } else { p };
            }
            Fraction { p, q: 1 }
        })
        .collect()
}

/// A window in a span, unbounded at times.
fn window(random: &mut Random, low: i64, high: i64) -> Window {
    let (a, b) = (random.within(low, high), random.within(low, high));
    let narrow = random.one_in(2).then(|| a.saturating_add(random.within(0, 6)).min(high));
    let (minimum, maximum) = (a.min(b), narrow.map_or(a.max(b), |end| end.max(a.min(b))));
    Window {
        minimum: (!random.one_in(8)).then_some(minimum),
        maximum: (!random.one_in(8)).then_some(maximum),
    }
}

/// The span in which the windows of a list lie: mostly narrow, so that windows meet.
fn span(random: &mut Random) -> (i64, i64) {
    match random.below(8) {
        0 => (i64::MAX - 40, i64::MAX),
        1 => (i64::MIN, i64::MIN + 40),
        2 => (-1 << 52, 1 << 52),
        3 => (i64::MIN / 2, i64::MAX / 2),
        4 => (-1_000, 1_000),
        _ => (-30, 30),
    }
}

/// Leaves of few rules.
pub fn leaves(random: &mut Random) -> Vec<Leaf> {
    let (low, high) = span(random);
    let rules: Vec<_> = (0..1 + random.below(4)).map(|_| (list(random), list(random))).collect();
    let count = if random.one_in(200) { 128 } else { random.below(13) };
    (0..count)
        .map(|_| {
            let (required, barred) = random.pick(&rules).clone();
            let mut leaf = Leaf {
                window: window(random, low, high),
                required,
                barred,
            };
            if random.one_in(4) {
                leaf.barred = Vec::new();
            }
            leaf
        })
        .collect()
}

/// Leaves of few rules, of whole divisors of up to 63 bits: beyond the shared domain.
pub fn large_leaves(random: &mut Random) -> Vec<Leaf> {
    let (low, high) = span(random);
    let rules: Vec<_> = (0..1 + random.below(3))
        .map(|_| {
            let barred = if random.one_in(2) { Vec::new() } else { large_list(random) };
            (large_list(random), barred)
        })
        .collect();
    (0..random.below(9))
        .map(|_| {
            let (required, barred) = random.pick(&rules).clone();
            Leaf {
                window: window(random, low, high),
                required,
                barred,
            }
        })
        .collect()
}

/// Amounts worth asking about: next to bounds, multiples of divisors, and any.
pub fn values(random: &mut Random, leaves: &[Leaf]) -> Vec<i64> {
    let mut values = vec![0, random.next() as i64, random.within(-40, 40)];
    for leaf in leaves.iter().take(8) {
        for bound in [leaf.window.minimum, leaf.window.maximum].into_iter().flatten() {
            values.push(bound.saturating_add(random.within(-1, 1)));
        }
        if let Some(f) = leaf.required.first() {
            let near = leaf.window.minimum.unwrap_or(0);
            values.push((f.p as i64).saturating_mul(near.div_euclid(f.p as i64).saturating_add(random.within(0, 2))));
        }
    }
    values
}

/// Windows of days with one set of weekdays.
pub fn days(random: &mut Random) -> (Vec<Window>, u8) {
    let set = if random.one_in(3) {
        1 << random.below(7)
    } else {
        1 + random.below(127)
    } as u8;
    let (low, high) = match random.below(4) {
        0 => (0, days::LAST),
        1 => (0, 40),
        2 => (days::LAST - 40, days::LAST),
        _ => (8_880, 8_950),
    };
    let windows = (0..random.below(13)).map(|_| window(random, low, high)).collect();
    (windows, set)
}
