//! The calendar: days since 1 January 2000, and their dates.

use crate::{ffi, RawAnswer, Refusal};

/// The last day, which is 31 December 2099; the first, 1 January 2000, is 0.
pub const DAY_MAX: u32 = 36_524;

/// A date of the Gregorian calendar.
#[derive(Clone, Copy, Debug, PartialEq, Eq, Hash)]
pub struct Date {
    /// The year.
    pub year: u32,
    /// The month, from 1 on.
    pub month: u32,
    /// The day of the month, from 1 on.
    pub day: u32,
}

/// The date of a day, as it stands in the C interface.
#[derive(Clone, Copy, Debug, PartialEq, Eq, Hash)]
#[repr(C)]
pub struct RawDate {
    /// The refusal's number; 0 if the call was not refused.
    pub refusal: u32,
    /// The year; 0 if the call was refused.
    pub year: u32,
    /// The month; 0 if the call was refused.
    pub month: u32,
    /// The day of the month; 0 if the call was refused.
    pub day: u32,
}

/// The day of a date: the days since 1 January 2000. A date that the calendar's years 2000 to 2099 do not have meets [`Refusal::BadDate`].
///
/// ```
/// use libretto::{day, Date, Refusal, DAY_MAX};
///
/// assert_eq!(day(Date { year: 2000, month: 1, day: 1 }), Ok(0));
/// assert_eq!(day(Date { year: 2026, month: 3, day: 14 }), Ok(9569));
/// assert_eq!(day(Date { year: 2099, month: 12, day: 31 }), Ok(DAY_MAX));
/// assert_eq!(day(Date { year: 2026, month: 2, day: 29 }), Err(Refusal::BadDate));
/// ```
pub fn day(date: Date) -> Result<u32, Refusal> {
    let raw = day_raw(date.year, date.month, date.day);
    Refusal::check(raw.refusal)?;
    Ok(raw.number)
}

/// [`day`] with three numbers and with the refusal's number in place of a [`Refusal`]. The answer's number is the day, and 0 if the call was refused.
///
/// ```
/// let raw = libretto::day_raw(2000, 2, 29);
/// assert_eq!((raw.refusal, raw.number), (0, 59));
/// let raw = libretto::day_raw(2100, 1, 1);
/// assert_eq!((raw.refusal, raw.number), (16, 0));
/// ```
pub fn day_raw(year: u32, month: u32, day: u32) -> RawAnswer {
    ffi::day(year, month, day)
}

/// The date of a day: the one of which [`day`] gives this day. A day above [`DAY_MAX`] meets [`Refusal::BadDate`].
///
/// ```
/// use libretto::{date, Date, Refusal};
///
/// assert_eq!(date(9569), Ok(Date { year: 2026, month: 3, day: 14 }));
/// assert_eq!(date(36_525), Err(Refusal::BadDate));
/// ```
pub fn date(day: u32) -> Result<Date, Refusal> {
    let raw = date_raw(day);
    Refusal::check(raw.refusal)?;
    Ok(Date { year: raw.year, month: raw.month, day: raw.day })
}

/// [`date`] with the refusal's number in place of a [`Refusal`].
///
/// ```
/// let raw = libretto::date_raw(60);
/// assert_eq!((raw.refusal, raw.year, raw.month, raw.day), (0, 2000, 3, 1));
/// ```
pub fn date_raw(day: u32) -> RawDate {
    ffi::date(day)
}

#[cfg(test)]
mod tests {
    use super::*;

    #[test]
    fn days_and_dates() {
        let of = |year, month, day| Date { year, month, day };
        for (number, written) in [(0, of(2000, 1, 1)), (59, of(2000, 2, 29)), (366, of(2001, 1, 1)), (DAY_MAX, of(2099, 12, 31))] {
            assert_eq!((day(written), date(number)), (Ok(number), Ok(written)));
        }
        for wrong in [of(1999, 12, 31), of(2100, 1, 1), of(2099, 2, 29), of(2000, 0, 1), of(2000, 13, 1), of(2000, 4, 31), of(2000, 4, 0)] {
            assert_eq!(day(wrong), Err(Refusal::BadDate), "{wrong:?}");
        }
        assert_eq!([DAY_MAX + 1, u32::MAX].map(date), [Err(Refusal::BadDate); 2]);
    }
}
