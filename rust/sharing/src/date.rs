//! Days of the calendar, in UTC, as YYYY-MM-DD.

use crate::arguments::{number, usage};
use crate::failure::Failure;
use std::time::{SystemTime, UNIX_EPOCH};

const SECONDS_OF_DAY: usize = 24 * 60 * 60;

/// The last second that has four digits for its year, counted from 1970 on.
const LAST_SECOND: usize = 253_402_300_799;

/// The day that it is, or that of the time SOURCE_DATE_EPOCH, by which runs that are to write the same are told one.
pub fn today() -> Result<String, Failure> {
    let seconds = match std::env::var_os("SOURCE_DATE_EPOCH") {
        Some(word) => number(&word, LAST_SECOND).or_else(|reason| usage(format!("SOURCE_DATE_EPOCH: {reason}")))?,
        // A clock that stands before 1970 is no reason to fail.
        None => SystemTime::now().duration_since(UNIX_EPOCH).unwrap_or_default().as_secs() as usize,
    };
    let (year, month, day) = day_after_1970(seconds.min(LAST_SECOND) / SECONDS_OF_DAY);
    Ok(format!("{year:04}-{month:02}-{day:02}"))
}

/// Year, month and day, so many days after 1 January 1970. Years count from March here, so that the day that only some
/// have is the last: in 400 of them are 146,097 days.
fn day_after_1970(days: usize) -> (usize, usize, usize) {
    // From 1 March of the year 0.
    let days = days + 719_468;
    let (centuries, day) = (days / 146_097, days % 146_097);
    let year = (day - day / 1_460 + day / 36_524 - day / 146_096) / 365;
    let day = day - (365 * year + year / 4 - year / 100);
    // From March on the months have 31 30 31 30 31 days, which are 153, over and over.
    let month = (5 * day + 2) / 153;
    let day = day - (153 * month + 2) / 5 + 1;
    let (month, next) = if month < 10 { (month + 3, 0) } else { (month - 9, 1) };
    (400 * centuries + year + next, month, day)
}

/// Is there such a day, and is it written so?
pub fn is_day(text: &str) -> bool {
    let parts: Vec<&str> = text.split('-').collect();
    let lengths: Vec<usize> = parts.iter().map(|part| part.len()).collect();
    let numbers: Vec<usize> = parts.iter().filter_map(|part| number(part.as_ref(), 9999).ok()).collect();
    match (&lengths[..], &numbers[..]) {
        ([4, 2, 2], &[year, month, day]) => (1..=last_day(year, month)).contains(&day),
        _ => false,
    }
}

/// The last day of a month, 0 where there is no such month.
fn last_day(year: usize, month: usize) -> usize {
    let is_leap = year.is_multiple_of(if year.is_multiple_of(100) { 400 } else { 4 });
    match month {
        2 => 28 + is_leap as usize,
        4 | 6 | 9 | 11 => 30,
        1..=12 => 31,
        _ => 0,
    }
}
