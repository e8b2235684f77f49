//! The static library of this repository.
use crate::leaf::Fraction;

#[repr(C)]
#[derive(Clone, Copy)]
struct Divisors {
    places: [Fraction; 6],
    count: usize,
    refusal: u8,
}

/// How far a sheet was taken, and what stopped it.
#[repr(C)]
#[derive(Clone, Copy, Debug)]
pub struct Taken {
    pub accepted: usize,
    pub start: usize,
    pub refusal: u8,
    pub byte: usize,
}

#[repr(C)]
#[derive(Clone, Copy)]
struct Answer {
    admitted: bool,
    sheet: Taken,
}

/// What a sheet came to. `done` is false where memory ran out.
#[repr(C)]
#[derive(Clone, Copy)]
struct SheetText {
    done: bool,
    sheet: Taken,
    length: usize,
}

/// What a run of a list came to. `done` is false where memory ran out.
#[repr(C)]
#[derive(Clone, Copy, Debug)]
pub struct Run {
    pub done: bool,
    pub leaves: usize,
    pub yes: usize,
    pub lines: usize,
}

extern "C" {
    fn rule_lines_fold(written: *const Fraction, count: usize) -> Divisors;
    fn rule_lines_thin(written: *const Fraction, count: usize) -> Divisors;
    fn rule_lines_print(sheet: *const u8, bytes: usize, out: *mut u8, room: usize) -> SheetText;
    fn rule_lines_admit(sheet: *const u8, bytes: usize, value: i64, read: bool) -> Answer;
    fn rule_lines_make(places: usize, leaves: *const u8, bytes: usize) -> Run;
    fn rule_lines_run(places: usize, leaves: *const u8, bytes: usize, values: *const i64, count: usize, readings: usize) -> Run;
}

fn kept(list: Divisors) -> Result<Vec<Fraction>, u8> {
    match list.refusal {
        0 => Ok(list.places[..list.count].to_vec()),
        number => Err(number),
    }
}

/// The folded list of required divisors, or the number of the refusal.
pub fn fold(written: &[Fraction]) -> Result<Vec<Fraction>, u8> {
    // SAFETY: the pointer and the length are those of a slice, which the call only reads.
    kept(unsafe { rule_lines_fold(written.as_ptr(), written.len()) })
}

/// The thinned list of barred divisors, or the number of the refusal.
pub fn thin(written: &[Fraction]) -> Result<Vec<Fraction>, u8> {
    // SAFETY: as in `fold`.
    kept(unsafe { rule_lines_thin(written.as_ptr(), written.len()) })
}

/// How far a sheet is taken, and the text of its lines and of what refused it.
pub fn print(sheet: &[u8]) -> (Taken, String) {
    let mut out = vec![0; 128 * 600 + 600];
    // SAFETY: each pointer goes with the length of its slice, and `out` is lent for writing alone.
    let told = unsafe { rule_lines_print(sheet.as_ptr(), sheet.len(), out.as_mut_ptr(), out.len()) };
    assert!(told.done && told.length <= out.len(), "out of memory or room");
    out.truncate(told.length);
    (told.sheet, String::from_utf8(out).expect("a text"))
}

/// Whether a leaf of the sheet admits the amount; with `read` whether a line does.
pub fn admit(sheet: &[u8], value: i64, read: bool) -> bool {
    // SAFETY: as in `fold`.
    let answer = unsafe { rule_lines_admit(sheet.as_ptr(), sheet.len(), value, read) };
    assert!(answer.sheet.refusal == 0, "a sheet was refused");
    answer.admitted
}

/// Reads the leaves that the bytes hold into a table of so many places.
pub fn make(places: usize, leaves: &[u8]) -> Run {
    // SAFETY: as in `fold`.
    let run = unsafe { rule_lines_make(places, leaves.as_ptr(), leaves.len()) };
    assert!(run.done, "out of memory");
    run
}

/// A list of so many places takes the leaves that the bytes hold, answers the questions and is read so many times.
pub fn run(places: usize, leaves: &[u8], values: &[i64], readings: usize) -> Run {
    // SAFETY: each pointer goes with the length of its slice, which the call only reads.
    let run = unsafe { rule_lines_run(places, leaves.as_ptr(), leaves.len(), values.as_ptr(), values.len(), readings) };
    assert!(run.done, "out of memory");
    run
}
