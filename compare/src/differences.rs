//! The inputs of docs/DIFFERENCES.md, tried on both sides.
use crate::canonical::ir::{BoundInteger, Round};
use crate::leaf::{list_text, Fraction, Leaf, Window};
use crate::{ours, sheet, theirs};
use serde_json::Number;

fn divisors(text: &str) -> Vec<Fraction> {
    let number = |text: &str| text.parse().expect("a number");
    let fraction = |text: &str| match text.split_once('/') {
        Some((p, q)) => Fraction {
            p: number(p),
            q: number(q),
        },
        None => Fraction { p: number(text), q: 1 },
    };
    if text == "-" {
        return Vec::new();
    }
    text.split(',').map(fraction).collect()
}

/// A leaf as a line has it.
fn leaf(text: &str) -> Leaf {
    let fields: Vec<&str> = text.split(' ').collect();
    let [minimum, maximum, required, barred] = fields.as_slice() else {
        panic!("no leaf: {text}");
    };
    let bound = |text: &str| (text != "*").then(|| text.parse().expect("a bound"));
    Leaf {
        window: Window {
            minimum: bound(minimum),
            maximum: bound(maximum),
        },
        required: divisors(required),
        barred: divisors(barred),
    }
}

fn show(input: &str, ours: &str, theirs: &str) {
    let one_line = |text: &str| text.trim_end().replace('\n', "; ");
    let mark = if ours == theirs { "same" } else { "DIFFERENT" };
    println!(
        "{mark:<10}{input}\n          here: {}\n          crate: {}",
        one_line(ours),
        one_line(theirs)
    );
}

/// A list of required divisors, folded.
fn fold(written: &str) {
    let list = divisors(written);
    let ours = ours::fold(&list).map_or_else(|number| format!("refused {number}"), |list| list_text(&list));
    show(&format!("required {written}"), &ours, &theirs::fold(&list));
}

/// A list of barred divisors, thinned.
fn thin(written: &str) {
    let list = divisors(written);
    let ours = ours::thin(&list).map_or_else(|number| format!("refused {number}"), |list| list_text(&list));
    show(&format!("barred {written}"), &ours, &theirs::thin(&list));
}

/// Leaves, and their lines.
fn lines(text: &str) {
    let leaves: Vec<Leaf> = text.split("; ").map(leaf).collect();
    let (_, ours) = ours::print(&sheet::of_amounts(&leaves));
    show(text, &ours, &theirs::Read::of(&leaves).text());
}

/// A minimum that no amount has, by its magnitude.
fn minimum(magnitude: u64, is_negative: bool) {
    let mut bytes = vec![0x41, if is_negative { 5 } else { 1 }];
    sheet::put_number(&mut bytes, magnitude);
    bytes.extend([0, 0]);
    let (_, ours) = ours::print(&bytes);
    let text = format!("{}{magnitude}", if is_negative { "-" } else { "" });
    let theirs = BoundInteger::from_number(&text.parse().expect("a number"));
    let theirs = theirs.map_or("no bound".to_owned(), |bound| format!("read as {}", bound.to_number()));
    show(&format!("minimum {text}"), &ours, &theirs);
}

/// The crate's rounding up to a multiple, which is asked of the value itself and not of what lies above it.
fn rounding(step: i64, value: i64) {
    let bound = |value: i64| BoundInteger::from_number(&Number::from(value)).expect("a bound");
    let up = bound(step)
        .multiple_beyond(&bound(value), Round::Up)
        .map(|bound| bound.to_number().to_string());
    println!(
        "{:<10}{value} rounded up by {step}\n          crate: {}",
        "-",
        up.unwrap_or("none".to_owned())
    );
}

/// Leaves with a reading behind those marked R: what the crate makes of them.
fn readings(text: &str) {
    let mark = |part: &str| (leaf(part.trim_end_matches(" R")), part.ends_with(" R"));
    let leaves: Vec<(Leaf, bool)> = text.split("; ").map(mark).collect();
    println!(
        "{:<10}{text}\n          crate: {}",
        "-",
        theirs::lines_with_readings(&leaves).trim_end().replace('\n', "; ")
    );
}

/// What only this repository can be asked.
fn fold_here(written: &str) {
    let ours = ours::fold(&divisors(written)).map_or_else(|number| format!("refused {number}"), |list| list_text(&list));
    println!("{:<10}required {written}\n          here: {ours}", "-");
}

/// All inputs.
pub fn print() {
    let build = if cfg!(feature = "arbitrary-precision") {
        "arbitrary precision"
    } else {
        "64 bits"
    };
    let exact = if option_env!("ALL_EXACT").is_some() {
        ", every divisor being exact as a float"
    } else {
        ""
    };
    println!("The crate's build: {build}{exact}. R: a reading.\n");
    fold("4,9223372036854775806");
    fold("2,3,4,5,6,7,8");
    fold("9223372036854775808");
    fold_here("2/3,4/3");
    fold("25/2,10");
    fold("1/10,3/10");
    thin("5/2,5");
    minimum(1 << 63, false);
    minimum(0, true);
    lines("10 9 - -");
    lines("10 9 - -; 0 3 - -");
    lines("0 3 - -; 10 9 - -; 11 12 - -");
    lines("0 0 9007199254740992 -; 2 2 9007199254740992 -");
    lines("0 0 9007199254740993 -; 2 2 9007199254740993 -");
    lines("0 4611686018427387904 4611686018427387904 -; 4611686018427387906 9223372036854775807 4611686018427387904 -");
    lines("0 9223372036854775800 10 -; 9223372036854775802 9223372036854775807 10 -");
    lines("* -8 4 -; -4 * 4 -");
    lines("* -9 4 -; -5 * 4 -");
    rounding(4, -8);
    rounding(4, -7);
    readings("0 8 4 -; 0 8 2 - R; 12 20 4 -");
    readings("0 8 4 -; 12 20 4 - R; 0 8 2 -");
}
