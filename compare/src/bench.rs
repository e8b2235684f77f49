//! The same leaves through both sides, each part of a run timed: medians of many rounds, and how many times this repository is faster.
use crate::canonical::ir::{BoundInteger, IntegerLeaf, IntegerLeaves};
use crate::leaf::{Fraction, Leaf, Window};
use crate::random::Random;
use crate::{ours, sheet, theirs};
use serde_json::Number;
use std::hint::black_box;
use std::sync::atomic::{AtomicI32, Ordering::Relaxed};

const SIZES: [usize; 5] = [10, 100, 128, 1_000, 5_000];

/// How many amounts are asked about in a round.
const QUESTIONS: usize = 16;

/// How many more readings the second one is timed by.
const MORE: usize = 1_000;

/// The parts of a run, in nanoseconds: leaves made, inserted, asked and read, one more reading, and all that a list needs to come to its lines.
#[derive(Clone, Copy, Default)]
struct Parts {
    making: f64,
    inserting: f64,
    asking: f64,
    reading: f64,
    reading_again: f64,
    whole: f64,
}

/// So many leaves in the order of the list, each rule having as many: every second window touches the one before it on its grid, and those
/// between stand apart.
fn leaves(count: usize, rules: usize) -> Vec<Leaf> {
    let of_rule = count.div_ceil(rules);
    (0..count)
        .map(|i| {
            let (p, at) = (1_000 + 2 * (i / of_rule) as u64, (i % of_rule) as i64);
            let step = p as i64;
            let low = step * (10 * (at / 2) + 3 * (at % 2));
            Leaf {
                window: Window {
                    minimum: Some(low),
                    maximum: Some(low + 2 * step),
                },
                required: vec![Fraction { p, q: 1 }],
                barred: vec![Fraction { p: 7, q: 1 }],
            }
        })
        .collect()
}

/// Amounts up to a little above the highest maximum, of which most are admitted by no leaf.
fn questions(random: &mut Random, leaves: &[Leaf]) -> Vec<i64> {
    let high = leaves.iter().filter_map(|leaf| leaf.window.maximum).max().unwrap_or(0);
    (0..QUESTIONS).map(|_| random.within(0, high + 1_000)).collect()
}

#[repr(C)]
struct Time {
    seconds: i64,
    nanoseconds: i64,
}

extern "C" {
    fn clock_gettime(clock: i32, time: *mut Time) -> i32;
}

/// Of lists of so many leaves the time is that of the processor alone, which other programs disturb less; below, the clock on the wall, which costs
/// less to read.
const LONG: usize = 1_000;
const WALL: i32 = 1;
const PROCESSOR: i32 = 3;
static CLOCK: AtomicI32 = AtomicI32::new(WALL);

/// The clock in nanoseconds.
fn now() -> f64 {
    let mut time = Time {
        seconds: 0,
        nanoseconds: 0,
    };
    // SAFETY: the call fills the struct that it is lent.
    let failed = unsafe { clock_gettime(CLOCK.load(Relaxed), &mut time) };
    assert_eq!(failed, 0, "no clock");
    time.seconds as f64 * 1e9 + time.nanoseconds as f64
}

fn since(start: f64) -> f64 {
    now() - start
}

/// What a call takes; one before it is not timed, so that neither side meets what the other left in the processor.
fn timed<T>(work: impl Fn() -> T) -> f64 {
    black_box(work());
    let start = now();
    black_box(work());
    since(start)
}

/// A run of this repository's list. A call is whole, with tables that are made and let go, so each part is what a call takes longer with that part
/// than without it; only `whole` is a call as it is.
fn run_ours(places: usize, bytes: &[u8], values: &[i64]) -> Parts {
    let made = timed(|| ours::make(places, bytes)) - timed(|| ours::make(places, &[]));
    let inserted = timed(|| ours::run(places, bytes, &[], 0));
    let asked = timed(|| ours::run(places, bytes, values, 0));
    let read = timed(|| ours::run(places, bytes, &[], 1));
    let read_again = timed(|| ours::run(places, bytes, &[], 1 + MORE));
    Parts {
        making: made,
        inserting: inserted - timed(|| ours::run(places, &[], &[], 0)) - made,
        asking: asked - inserted,
        reading: read - inserted,
        reading_again: (read_again - read) / MORE as f64,
        whole: read,
    }
}

/// A run of the crate, its parts timed one after the other: leaves from numbers, inserts, questions, the first reading, more of them.
fn run_theirs(leaves: &[Leaf], values: &[(BoundInteger, Number)]) -> (usize, usize, Parts) {
    let mut parts = Parts::default();
    let start = now();
    let made: Vec<IntegerLeaf> = leaves.iter().map(theirs::leaf_of).collect();
    parts.making = since(start);
    let kept = made.clone();
    let start = now();
    let mut list = IntegerLeaves::default();
    for leaf in made {
        list.insert(leaf);
    }
    parts.inserting = since(start);
    let start = now();
    let yes = values
        .iter()
        .filter(|(value, number)| theirs::any_admits(&kept, value, number))
        .count();
    parts.asking = since(start);
    let start = now();
    let lines = black_box(&mut list).as_slice().len();
    parts.reading = since(start);
    let start = now();
    for _ in 0..MORE {
        black_box(black_box(&mut list).as_slice());
    }
    parts.reading_again = since(start) / MORE as f64;
    parts.whole = parts.making + parts.inserting + parts.reading;
    (lines, yes, parts)
}

/// The median, and how far the middle half of the times lies apart, as a part of it.
fn median(times: &mut [f64]) -> (f64, f64) {
    times.sort_unstable_by(f64::total_cmp);
    let at = |part: usize| times[(times.len() - 1) * part / 4];
    (at(2), (at(3) - at(1)) / at(2).abs().max(1.0))
}

/// A part by its name, and how it is told: for a leaf, or as it is.
struct Row {
    name: &'static str,
    part: fn(&Parts) -> f64,
    is_for_a_leaf: bool,
}

const fn row(name: &'static str, is_for_a_leaf: bool, part: fn(&Parts) -> f64) -> Row {
    Row { name, part, is_for_a_leaf }
}

const ROWS: [Row; 7] = [
    row("leaves made, a leaf", true, |p| p.making),
    row("inserts, a leaf", true, |p| p.inserting),
    row("first reading, a leaf", true, |p| p.reading),
    row("inserts and reading, a leaf", true, |p| p.inserting + p.reading),
    row("all of it, a leaf", true, |p| p.whole),
    row("second reading", false, |p| p.reading_again),
    row("a question, a leaf", true, |p| p.asking / QUESTIONS as f64),
];

/// Each part on both sides, and how many times this repository is faster.
fn print_rows(count: usize, mine: &[Parts], other: &[Parts]) {
    println!(
        "{:<28}{:>14}{:>8}{:>16}{:>8}{:>9}",
        "nanoseconds", "here", "spread", "crate", "spread", "times"
    );
    for Row { name, part, is_for_a_leaf } in ROWS {
        // A second reading takes no work, however many leaves: it would be lost in what a longer call takes.
        if name == "second reading" && count > SIZES[0] {
            continue;
        }
        let (a, a_spread) = median(&mut mine.iter().map(part).collect::<Vec<_>>());
        let (b, b_spread) = median(&mut other.iter().map(part).collect::<Vec<_>>());
        let per = if is_for_a_leaf { count as f64 } else { 1.0 };
        let (a_spread, b_spread) = (a_spread * 100.0, b_spread * 100.0);
        let (a, b, times) = (a / per, b / per, b / a);
        println!("{name:<28}{a:>14.1}{a_spread:>7.0}%{b:>16.1}{b_spread:>7.0}%{times:>9.1}");
    }
}

/// One size, so many rules, in one order of arrival.
fn measure(random: &mut Random, count: usize, rules: usize, is_shuffled: bool) {
    let mut leaves = leaves(count, rules);
    if is_shuffled {
        random.shuffle(&mut leaves);
    }
    let values = questions(random, &leaves);
    let number = |v: &i64| (BoundInteger::from_number(&Number::from(*v)).unwrap(), Number::from(*v));
    let numbers: Vec<_> = values.iter().map(number).collect();
    let mut bytes = Vec::new();
    leaves.iter().for_each(|leaf| sheet::put_leaf(&mut bytes, leaf));

    CLOCK.store(if count < LONG { WALL } else { PROCESSOR }, Relaxed);
    let run = ours::run(count, &bytes, &values, 1);
    let (lines, yes, _) = run_theirs(&leaves, &numbers);
    assert_eq!((run.leaves, run.lines, run.yes), (count, lines, yes), "the sides differ");
    let rounds = (50_000 / count).clamp(11, 1_001) | 1;
    let (mut mine, mut other) = (Vec::new(), Vec::new());
    // The first round warms both up.
    for round in 0..=rounds {
        let here = run_ours(count, &bytes, &values);
        run_theirs(&leaves, &numbers);
        let there = run_theirs(&leaves, &numbers).2;
        if round > 0 {
            mine.push(here);
            other.push(there);
        }
    }

    let order = if is_shuffled { "random" } else { "ascending" };
    println!("\n{count} leaves of {rules} rules, {order} order, {lines} lines; medians of {rounds} rounds");
    print_rows(count, &mine, &other);
}

/// All sizes up to the one given, few rules and many, ascending and random order of arrival.
pub fn run(most: usize) {
    let mut random = Random::of(2026);
    for is_shuffled in [false, true] {
        for count in SIZES.into_iter().filter(|count| *count <= most) {
            for rules in [4.min(count), count / 2] {
                measure(&mut random, count, rules, is_shuffled);
            }
        }
    }
}
