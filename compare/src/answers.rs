//! A fixed list of the crate's answers, a line each, which `crates/crate_answers` replays.
use crate::leaf::{list_text, Leaf};
use crate::random::Random;
use crate::{cases, sheet, theirs};

/// Longer lines are left out.
const LONGEST: usize = 300;

fn hexadecimal(bytes: &[u8]) -> String {
    bytes.iter().map(|b| format!("{b:02x}")).collect()
}

/// Line feeds are written as semicolons.
fn one_line(text: &str) -> String {
    text.replace('\n', ";")
}

/// The lines of a list, and one question about its leaves.
fn of_list(random: &mut Random) -> Vec<String> {
    let leaves: Vec<Leaf> = cases::leaves(random);
    let bytes = hexadecimal(&sheet::of_amounts(&leaves));
    let read = theirs::Read::of(&leaves);
    let values = cases::values(random, &leaves);
    let value = *random.pick(&values);
    let answer = if read.admits(value, false) { "yes" } else { "no" };
    vec![
        format!("lines {bytes}={}", one_line(&read.text())),
        format!("admit {bytes} {value}={answer}"),
    ]
}

fn of_fold(random: &mut Random) -> Vec<String> {
    let (required, barred) = (cases::list(random), cases::list(random));
    let (folded, thinned) = (theirs::fold(&required), theirs::thin(&barred));
    vec![format!("fold {} {}={folded} {thinned}", list_text(&required), list_text(&barred))]
}

/// Divisors of up to 63 bits, the crate's numbers having the limit of this repository's joins.
fn of_large_fold(random: &mut Random) -> Vec<String> {
    let required = cases::large_list(random);
    serde_json::limit::set(true);
    let folded = theirs::fold(&required);
    serde_json::limit::set(false);
    vec![format!("fold {} -={folded} -", list_text(&required))]
}

fn of_days(random: &mut Random) -> Vec<String> {
    let (windows, set) = cases::days(random);
    let bytes = hexadecimal(&sheet::of_days(&windows, set));
    vec![format!("lines {bytes}={}", one_line(&theirs::merge_days(&windows, set)))]
}

/// So many lines of each kind, from the seed.
pub fn print(seed: u64, count: usize) {
    let kinds: [(&str, fn(&mut Random) -> Vec<String>); 4] = [
        ("lines of amounts, and questions about them", of_list),
        ("divisors folded and thinned", of_fold),
        ("large divisors folded, where a join may be absent", of_large_fold),
        ("merged days", of_days),
    ];
    println!("# Answers of the Rust crate, written by `compare/run.sh .. answers {seed} {count}`: bytes in hexadecimal, semicolons for line feeds.");
    let mut random = Random::of(seed);
    for (name, answers) in kinds {
        println!("# {name}");
        let lines = std::iter::repeat_with(|| answers(&mut random))
            .flatten()
            .filter(|line| line.len() <= LONGEST);
        lines.take(count).for_each(|line| println!("{line}"));
    }
}
