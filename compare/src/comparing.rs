//! Both sides are given the same cases; the first difference ends it.
use crate::leaf::{list_text, Fraction, Leaf, Window};
use crate::random::Random;
use crate::{cases, ours, sheet, theirs};

/// How many were compared.
#[derive(Default)]
pub struct Counts {
    pub lists: u64,
    pub leaves: u64,
    pub lines: u64,
    pub questions: u64,
    pub folds: u64,
    pub thinned: u64,
    pub large_folds: u64,
    pub windows: u64,
    pub merges: u64,
}

/// An input on which the sides differ, and what each says.
pub struct Difference {
    pub input: String,
    pub ours: String,
    pub theirs: String,
}

fn same(input: impl Fn() -> String, ours: String, theirs: String) -> Result<(), Difference> {
    if ours == theirs {
        Ok(())
    } else {
        Err(Difference {
            input: input(),
            ours,
            theirs,
        })
    }
}

pub fn leaves_text(leaves: &[Leaf]) -> String {
    leaves.iter().map(|leaf| format!("\n  {leaf}")).collect()
}

/// The lines of leaves in their order, and each yes or no, before the reading and after it.
fn compare_list(random: &mut Random, leaves: &[Leaf], counts: &mut Counts) -> Result<(), Difference> {
    let bytes = sheet::of_amounts(leaves);
    let (told, text) = ours::print(&bytes);
    let read = theirs::Read::of(leaves);
    same(|| format!("leaves{}", leaves_text(leaves)), text.clone(), read.text())?;
    assert!(
        told.refusal == 0 && told.accepted == leaves.len(),
        "a sheet of the domain was refused"
    );
    counts.lists += 1;
    counts.leaves += leaves.len() as u64;
    counts.lines += text.lines().count() as u64;
    for value in cases::values(random, leaves) {
        for is_read in [false, true] {
            let (mine, other) = (ours::admit(&bytes, value, is_read), read.admits(value, is_read));
            let input = || {
                format!(
                    "{value}, {}, leaves{}",
                    if is_read { "of lines" } else { "of leaves" },
                    leaves_text(leaves)
                )
            };
            same(input, mine.to_string(), other.to_string())?;
            counts.questions += 1;
        }
    }
    Ok(())
}

fn kept_text(kept: Result<Vec<Fraction>, u8>) -> String {
    kept.map_or_else(|number| format!("refused {number}"), |list| list_text(&list))
}

fn compare_fold(random: &mut Random, counts: &mut Counts) -> Result<(), Difference> {
    let (required, barred) = (cases::list(random), cases::list(random));
    same(
        || format!("required {}", list_text(&required)),
        kept_text(ours::fold(&required)),
        theirs::fold(&required),
    )?;
    same(
        || format!("barred {}", list_text(&barred)),
        kept_text(ours::thin(&barred)),
        theirs::thin(&barred),
    )?;
    counts.folds += 1;
    counts.thinned += 1;
    Ok(())
}

/// Divisors of up to 63 bits, the crate's numbers having the limit of this repository's joins.
fn compare_large_fold(random: &mut Random, counts: &mut Counts) -> Result<(), Difference> {
    let list = cases::large_list(random);
    serde_json::limit::set(true);
    let other = theirs::fold(&list);
    serde_json::limit::set(false);
    same(
        || format!("required, under a limit, {}", list_text(&list)),
        kept_text(ours::fold(&list)),
        other,
    )?;
    counts.large_folds += 1;
    Ok(())
}

fn compare_days(random: &mut Random, counts: &mut Counts) -> Result<(), Difference> {
    let (windows, set) = cases::days(random);
    let (told, text) = ours::print(&sheet::of_days(&windows, set));
    let input = || {
        let text = |w: &Window| format!("\n  {:?} to {:?}", w.minimum, w.maximum);
        format!("days by number, set {set}{}", windows.iter().map(text).collect::<String>())
    };
    same(input, text, theirs::merge_days(&windows, set))?;
    assert!(told.refusal == 0 && told.accepted == windows.len(), "a sheet of days was refused");
    counts.merges += 1;
    counts.windows += windows.len() as u64;
    Ok(())
}

/// So many cases: four tenths of them lists of amounts, four tenths divisors, two tenths days.
pub fn compare(seed: u64, count: u64, counts: &mut Counts) -> Result<(), Difference> {
    let mut random = Random::of(seed);
    for case in 0..count {
        match case % 10 {
            0..=3 => {
                let leaves = cases::leaves(&mut random);
                compare_list(&mut random, &leaves, counts)?;
            }
            4..=6 => compare_fold(&mut random, counts)?,
            7 => compare_large_fold(&mut random, counts)?,
            _ => compare_days(&mut random, counts)?,
        }
    }
    Ok(())
}

/// So many lists of whole divisors of up to 63 bits, where every divisor is exact as a float and the crate's numbers have the limit of this
/// repository's joins: of the build that ALL_EXACT makes.
pub fn compare_large(seed: u64, count: u64, counts: &mut Counts) -> Result<(), Difference> {
    serde_json::limit::set(true);
    let mut random = Random::of(seed);
    for _ in 0..count {
        let leaves = cases::large_leaves(&mut random);
        compare_list(&mut random, &leaves, counts)?;
    }
    Ok(())
}
