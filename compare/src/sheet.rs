//! Leaves as bytes of a sheet.
use crate::leaf::{Fraction, Leaf, Window};

/// A number: groups of seven bits, lowest first, the top bit set when another follows.
pub fn put_number(sheet: &mut Vec<u8>, mut n: u64) {
    while n >= 0x80 {
        sheet.push(n as u8 | 0x80);
        n >>= 7;
    }
    sheet.push(n as u8);
}

fn put_list(sheet: &mut Vec<u8>, list: &[Fraction]) {
    put_number(sheet, list.len() as u64);
    for f in list {
        put_number(sheet, f.p);
        put_number(sheet, f.q);
    }
}

/// An amount leaf: flags, magnitudes of the bounds, required and barred divisors.
pub fn put_leaf(sheet: &mut Vec<u8>, leaf: &Leaf) {
    let bounds = [leaf.window.minimum, leaf.window.maximum];
    let mut flags = 0;
    for (bit, bound) in bounds.iter().enumerate() {
        flags |= u8::from(bound.is_some()) << bit;
        flags |= u8::from(bound.is_some_and(|b| b < 0)) << (bit + 2);
    }
    sheet.push(flags);
    for bound in bounds.iter().flatten() {
        put_number(sheet, bound.unsigned_abs());
    }
    put_list(sheet, &leaf.required);
    put_list(sheet, &leaf.barred);
}

/// A sheet of amounts.
pub fn of_amounts(leaves: &[Leaf]) -> Vec<u8> {
    let mut sheet = vec![0x41];
    for leaf in leaves {
        put_leaf(&mut sheet, leaf);
    }
    sheet
}

/// A sheet of days: windows of day numbers, each with the weekdays of the set.
pub fn of_days(windows: &[Window], set: u8) -> Vec<u8> {
    let mut sheet = vec![0x44];
    for Window { minimum, maximum } in windows {
        sheet.push(u8::from(minimum.is_some()) | u8::from(maximum.is_some()) << 1);
        for day in [minimum, maximum].into_iter().flatten() {
            for part in crate::days::date_of(*day) {
                put_number(&mut sheet, part);
            }
        }
        put_number(&mut sheet, u64::from(set));
    }
    sheet
}
