//! The day of the run.

use std::time::{SystemTime, UNIX_EPOCH};

/// Today's date as year, month and day (UTC).
pub fn today() -> String {
    let since = SystemTime::now().duration_since(UNIX_EPOCH).expect("the clock stands after 1970");
    date(since.as_secs() / 86_400)
}

/// The date so many days after the first of January 1970.
fn date(mut days: u64) -> String {
    let leap = |year: u64| year.is_multiple_of(4) && (!year.is_multiple_of(100) || year.is_multiple_of(400));
    let mut year = 1970;
    while days >= 365 + u64::from(leap(year)) {
        days -= 365 + u64::from(leap(year));
        year += 1;
    }
    let mut month = 1;
    for length in [31, 28 + u64::from(leap(year)), 31, 30, 31, 30, 31, 31, 30, 31, 30, 31] {
        if days < length {
            break;
        }
        days -= length;
        month += 1;
    }
    format!("{year}-{month:02}-{:02}", days + 1)
}

#[cfg(test)]
mod tests {
    use super::*;

    #[test]
    fn dates() {
        assert_eq!([0, 58, 59, 364, 365].map(date), ["1970-01-01", "1970-02-28", "1970-03-01", "1970-12-31", "1971-01-01"]);
        assert_eq!([11_016, 11_017, 19_782, 20_453].map(date), ["2000-02-29", "2000-03-01", "2024-02-29", "2025-12-31"]);
    }
}
