//! Days by their number from 1 January 2000, a Saturday, to 31 December 2199.

/// The number of 31 December 2199.
pub const LAST: i64 = 73_048;

fn is_leap(year: u64) -> bool {
    year % 4 == 0 && (year % 100 != 0 || year % 400 == 0)
}

fn days_of_month(year: u64, month: u64) -> i64 {
    match month {
        2 if is_leap(year) => 29,
        2 => 28,
        4 | 6 | 9 | 11 => 30,
        _ => 31,
    }
}

/// Year, month and day of a day's number.
pub fn date_of(mut day: i64) -> [u64; 3] {
    let (mut year, mut month) = (2000, 1);
    loop {
        let length = days_of_month(year, month);
        if day < length {
            return [year, month, day as u64 + 1];
        }
        day -= length;
        (year, month) = if month == 12 { (year + 1, 1) } else { (year, month + 1) };
    }
}

/// The date as a line has it.
pub fn date_text(day: i64) -> String {
    let [year, month, day] = date_of(day);
    format!("{year:04}-{month:02}-{day:02}")
}

/// Whether the weekday of a day is in the set, bit 0 Monday to bit 6 Sunday.
pub fn is_in(set: u8, day: i64) -> bool {
    set >> (day + 5).rem_euclid(7) & 1 == 1
}

/// The weekdays of a set as a line has them, 1 for Monday.
pub fn weekdays_text(set: u8) -> String {
    (0..7u8)
        .filter(|bit| set >> bit & 1 == 1)
        .map(|bit| char::from(b'1' + bit))
        .collect()
}
