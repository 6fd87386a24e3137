//! The calendar: every day and every date of 2000 to 2099 in both senses, every date in a box around them, and numbers of every size.

use libretto::{date, day, Date, Refusal, DAY_MAX};
use libretto_tests::evenings::NO_DAYS;
use libretto_tests::{compare_date, compare_day, report, Random};

/// Numbers of every size: small ones, those around each power of two, and some that are a year, a month or a day in their lowest 8 or 16 bits.
fn numbers() -> Vec<u32> {
    let powers = (0..32).flat_map(|bit| [(1u32 << bit) - 1, 1 << bit, (1 << bit) + 1]);
    let low_bits = [2000, 2026, 2099, 12, 31, 1].into_iter().flat_map(|number| [number + (1 << 8), number + (1 << 16), number + (1 << 31)]);
    powers.chain(low_bits).chain([0, 13, 30, 32, 1999, 2000, 2004, 2099, 2100, 2400, 9569, u32::MAX - 1, u32::MAX]).collect()
}

/// Each day has a date, which has this day; and it is the next one after that of the day before.
#[test]
fn every_day() {
    let mut before = Date { year: 1999, month: 12, day: 31 };
    for number in 0..=DAY_MAX {
        let raw = compare_date(number);
        let next = Date { year: raw.year, month: raw.month, day: raw.day };
        assert_eq!(raw.refusal, 0, "day {number}");
        let back = compare_day(raw.year, raw.month, raw.day);
        assert_eq!((back.refusal, back.number), (0, number), "{next:?}");
        assert_eq!((date(number), day(next)), (Ok(next), Ok(number)));

        // The day goes on by one, or a month or a year begins.
        let same_month = Date { day: before.day + 1, ..before };
        let next_month = Date { month: before.month + 1, day: 1, ..before };
        let next_year = Date { year: before.year + 1, month: 1, day: 1 };
        assert!([same_month, next_month, next_year].contains(&next), "day {number}: {next:?} after {before:?}");
        before = next;
    }
    assert_eq!(before, Date { year: 2099, month: 12, day: 31 }, "the last day");
    report("every_day", 2 * 36_525);
}

/// The lengths of the months, counted in another way than by the rule of leap years: 2000 to 2099 has a leap year every four years, 25 in all.
#[test]
fn lengths_of_months() {
    let length = |year, month| (1..=31).filter(|&of_month| day(Date { year, month, day: of_month }).is_ok()).count();
    for year in 2000..=2099 {
        let february = if year % 4 == 0 { 29 } else { 28 };
        let due = [31, february, 31, 30, 31, 30, 31, 31, 30, 31, 30, 31];
        assert_eq!((1..=12).map(|month| length(year, month)).collect::<Vec<_>>(), due, "the months of {year}");
    }
}

/// Every date in a box around those of the calendar.
#[test]
fn every_date_in_a_box() {
    let mut dates = 0;
    for year in 1998..=2101 {
        for month in 0..=13 {
            for of_month in 0..=32 {
                let raw = compare_day(year, month, of_month);
                dates += u32::from(raw.refusal == 0);
                assert!((2000..=2099).contains(&year) || raw.refusal == 16, "{year} {month} {of_month}");
            }
        }
    }
    assert_eq!(dates, DAY_MAX + 1, "as many dates as days");
    report("every_date_in_a_box", 104 * 14 * 33);
}

#[test]
fn numbers_of_every_size() {
    let numbers = numbers();
    for &number in &numbers {
        let raw = compare_date(number);
        assert_eq!(raw.refusal, if number > DAY_MAX { 16 } else { 0 }, "day {number}");
        // One such number beside two of a date, and three of them.
        for (year, month, of_month) in [(2000, 2, 29), (2026, 3, 14), (2099, 12, 31)] {
            compare_day(number, month, of_month);
            compare_day(year, number, of_month);
            compare_day(year, month, number);
        }
        for &other in &numbers {
            compare_day(number, other, 1);
            compare_day(2000, number, other);
            compare_day(number, 1, other);
        }
    }
    for day in NO_DAYS {
        assert_eq!((compare_date(day).refusal, date(day)), (16, Err(Refusal::BadDate)), "day {day}");
    }
    let mut random = Random::new(121);
    for _ in 0..100_000 {
        let [year, month, of_month] = [0, 1, 2].map(|_| random.next() as u32 >> random.below(32));
        compare_day(year, month, of_month);
        compare_date(year);
    }
    report("numbers_of_every_size", 120 * (10 + 3 * 120) + 200_000);
}
