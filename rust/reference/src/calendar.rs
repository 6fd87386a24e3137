//! Document 02 (viii): the calendar, by counting on from 1 January 2000 one day after another.

use std::sync::OnceLock;

/// A year, a month and a day of the month.
type Date = (u32, u32, u32);

/// Whether the Gregorian calendar gives February a 29th day in this year.
fn is_leap(year: u32) -> bool {
    year.is_multiple_of(4) && (!year.is_multiple_of(100) || year.is_multiple_of(400))
}

fn days_of_month(year: u32, month: u32) -> u32 {
    match month {
        2 if is_leap(year) => 29,
        2 => 28,
        4 | 6 | 9 | 11 => 30,
        _ => 31,
    }
}

fn next_date((year, month, day): Date) -> Date {
    if day < days_of_month(year, month) {
        (year, month, day + 1)
    } else if month < 12 {
        (year, month + 1, 1)
    } else {
        (year + 1, 1, 1)
    }
}

/// All dates of 2000 to 2099, each at the index that is its day. It is made once, because tests ask for many.
fn dates() -> &'static [Date] {
    static DATES: OnceLock<Vec<Date>> = OnceLock::new();
    DATES.get_or_init(|| {
        let mut dates = Vec::new();
        let mut date = (2000, 1, 1);
        while date.0 <= 2099 {
            dates.push(date);
            date = next_date(date);
        }
        dates
    })
}

/// 0 and the day of a date, or 16 and 0 where there is no such date in 2000 to 2099.
pub fn day(year: u32, month: u32, day: u32) -> (u32, u32) {
    // Dates rise by year, then month, then day, as their triples do.
    match dates().binary_search(&(year, month, day)) {
        Ok(index) => (0, index as u32),
        Err(_) => (16, 0),
    }
}

/// 0 and the date of a day, or 16 and zeros for a day above 36,524.
pub fn date(day: u32) -> (u32, u32, u32, u32) {
    match dates().get(day as usize) {
        Some(&(year, month, day)) => (0, year, month, day),
        None => (16, 0, 0, 0),
    }
}

/// Whether 16 is met by these days, a cue's own or a call's: a day above 36,524, or a first day after the last.
pub(crate) fn are_refused(first: u32, last: u32) -> bool {
    first > 36_524 || last > 36_524 || first > last
}
