//! The crate's integer leaves beside this repository's list, in answers and in speed. README.md says how it is run.
mod answers;
mod bench;
mod canonical;
mod cases;
mod comparing;
mod days;
mod differences;
mod leaf;
mod ours;
mod random;
mod sheet;
mod theirs;

use comparing::{Counts, Difference};
use std::env;
use std::process::ExitCode;

const USAGE: &str = "compare SEED COUNT | compare-large SEED COUNT | differences | answers SEED COUNT | bench SIZE";

/// Random cases on both sides: how many of each, and the first difference.
fn report(seed: u64, count: u64, counts: &Counts, outcome: Result<(), Difference>) -> ExitCode {
    println!(
        "lists of amounts {}, of {} leaves, with {} lines in their order",
        counts.lists, counts.leaves, counts.lines
    );
    println!("yes or no about an amount {}", counts.questions);
    println!("folded lists {}, thinned lists {}", counts.folds, counts.thinned);
    println!("folded lists of up to 63 bits, under a limit of joins, {}", counts.large_folds);
    println!("merges of days {}, of {} windows", counts.merges, counts.windows);
    match outcome {
        Ok(()) => {
            println!("cases {count}, seed {seed}: no difference");
            ExitCode::SUCCESS
        }
        Err(Difference { input, ours, theirs }) => {
            println!("DIFFERENT: {input}\nhere:\n{ours}\nin the crate:\n{theirs}");
            ExitCode::FAILURE
        }
    }
}

/// A comparison by its name, seed and count.
fn compare(what: &str, seed: &str, count: &str) -> ExitCode {
    let (seed, count) = (seed.parse().expect("a seed"), count.parse().expect("a count"));
    let mut counts = Counts::default();
    let outcome = match what {
        "compare" => comparing::compare(seed, count, &mut counts),
        _ => comparing::compare_large(seed, count, &mut counts),
    };
    report(seed, count, &counts, outcome)
}

fn main() -> ExitCode {
    let arguments: Vec<String> = env::args().skip(1).collect();
    let words: Vec<&str> = arguments.iter().map(String::as_str).collect();
    match words.as_slice() {
        [what @ ("compare" | "compare-large"), seed, count] => compare(what, seed, count),
        ["differences"] => {
            differences::print();
            ExitCode::SUCCESS
        }
        ["answers", seed, count] => {
            answers::print(seed.parse().expect("a seed"), count.parse().expect("a count"));
            ExitCode::SUCCESS
        }
        ["bench", most] => {
            bench::run(most.parse().expect("a size"));
            ExitCode::SUCCESS
        }
        _ => {
            eprintln!("usage: {USAGE}");
            ExitCode::FAILURE
        }
    }
}
