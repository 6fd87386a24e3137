//! The calendar, by the library and by the reference.

use crate::Faults;
use libretto::{date_raw, day_raw, RawAnswer, RawDate};

/// Asks the library and the reference for the day of a date, and compares the answers. Any difference ends the test with the whole case.
pub fn compare_day(year: u32, month: u32, day: u32) -> RawAnswer {
    let raw = day_raw(year, month, day);
    let (library, reference) = ((raw.refusal, raw.number), reference::day(year, month, day));
    let mut faults = Faults::default();
    faults.when(library != reference, "library and reference differ");
    // Told without the reference.
    faults.when(raw.refusal != 0 && raw.number != 0, "a refused call gave a number");
    faults.judge(|| format!("the day of year {year}, month {month}, day {day}\n(refusal, number): library {library:?}, reference {reference:?}"));
    raw
}

/// Asks the library and the reference for the date of a day, and compares the answers. Any difference ends the test with the whole case.
pub fn compare_date(day: u32) -> RawDate {
    let raw = date_raw(day);
    let (library, reference) = ((raw.refusal, raw.year, raw.month, raw.day), reference::date(day));
    let mut faults = Faults::default();
    faults.when(library != reference, "library and reference differ");
    faults.when(raw.refusal != 0 && (raw.year, raw.month, raw.day) != (0, 0, 0), "a refused call gave a date");
    faults.judge(|| format!("the date of day {day}\n(refusal, year, month, day): library {library:?}, reference {reference:?}"));
    raw
}
