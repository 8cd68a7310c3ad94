//! Days and dates. The store keeps a number for a day and knows nothing of calendars. Here day 0 is 1970-01-01, day 1
//! the next, and so on by the Gregorian calendar.

use crate::json::Json;

/// Years whose dates are shown. A shop may count its days otherwise, and a date for such a number would only mislead.
const SHOWN: std::ops::RangeInclusive<u32> = 2000..=2099;

/// The first year that has days.
const FIRST: u32 = 1970;

/// The days before each month of a year that is no leap year.
const BEFORE_MONTH: [u32; 12] = [0, 31, 59, 90, 120, 151, 181, 212, 243, 273, 304, 334];

/// Why a text that looks like a date has no day.
#[derive(Clone, Copy, Debug, PartialEq, Eq)]
pub enum NoDay {
    /// The calendar has no such date.
    NoDate,
    /// It is before the first day.
    TooEarly,
}

/// The day of a date that is written as 2026-03-31; none if the text is not written so.
pub fn of_date(text: &str) -> Option<Result<u32, NoDay>> {
    let parts: Vec<&str> = text.split('-').collect();
    let digits = |part: &str, count: usize| part.len() == count && part.bytes().all(|byte| byte.is_ascii_digit());
    match parts[..] {
        [year, month, day] if digits(year, 4) && digits(month, 2) && digits(day, 2) => {
            Some(counted(year.parse().ok()?, month.parse().ok()?, day.parse().ok()?))
        }
        _ => None,
    }
}

fn counted(year: u32, month: u32, day: u32) -> Result<u32, NoDay> {
    if year == 0 || !(1..=12).contains(&month) || !(1..=days_in(year, month)).contains(&day) {
        return Err(NoDay::NoDate);
    }
    let from_the_beginning = before_year(year) + before_month(year, month) + day - 1;
    from_the_beginning.checked_sub(before_year(FIRST)).ok_or(NoDay::TooEarly)
}

/// A day's date, if it is in a year that is shown.
pub fn date(day: u32) -> Option<String> {
    let day = day.checked_add(before_year(FIRST))?;
    let year = SHOWN.rev().find(|&year| before_year(year) <= day).filter(|year| day < before_year(year + 1))?;
    let within = day - before_year(year);
    let month = (1..=12).rev().find(|&month| before_month(year, month) <= within)?;
    Some(format!("{year}-{month:02}-{:02}", within - before_month(year, month) + 1))
}

/// `day 20543 (2026-03-31)`, or `day 7`.
pub fn shown(day: u32) -> String {
    date(day).map_or_else(|| format!("day {day}"), |date| format!("day {day} ({date})"))
}

/// What stands behind a version that has a day: ` (day 20543, 2026-03-31)`. Day 0 is that of versions without one.
pub fn beside(day: u32) -> String {
    match (day, date(day)) {
        (0, _) => String::new(),
        (day, Some(date)) => format!(" (day {day}, {date})"),
        (day, None) => format!(" (day {day})"),
    }
}

/// A day's date for programs.
pub fn field(day: u32) -> Json {
    date(day).map_or(Json::Null, |date| date.as_str().into())
}

fn is_leap(year: u32) -> bool {
    year.is_multiple_of(4) && (!year.is_multiple_of(100) || year.is_multiple_of(400))
}

/// The days from 0001-01-01 to the year's first.
fn before_year(year: u32) -> u32 {
    let years = year - 1;
    365 * years + years / 4 - years / 100 + years / 400
}

/// The days from the year's first to the month's.
fn before_month(year: u32, month: u32) -> u32 {
    BEFORE_MONTH[month as usize - 1] + (month > 2 && is_leap(year)) as u32
}

fn days_in(year: u32, month: u32) -> u32 {
    match month {
        12 => 31,
        _ => before_month(year, month + 1) - before_month(year, month),
    }
}

#[cfg(test)]
mod tests {
    use super::{beside, date, of_date, shown, NoDay};

    /// Numbers by the system's `date -u -d DATE +%s`, divided by 86,400.
    #[test]
    fn known_dates() {
        for (text, day) in [
            ("1970-01-01", 0),
            ("1970-03-01", 59),
            ("1972-02-29", 789),
            ("1999-12-31", 10_956),
            ("2000-02-29", 11_016),
            ("2000-03-01", 11_017),
            ("2024-02-29", 19_782),
            ("2026-03-31", 20_543),
            ("2026-12-31", 20_818),
            ("2100-02-28", 47_540),
            ("2100-03-01", 47_541),
            ("9999-12-31", 2_932_896),
        ] {
            assert_eq!(of_date(text), Some(Ok(day)), "{text}");
        }
    }

    /// Every day of the years that are shown leads back, and follows the day before.
    #[test]
    fn dates_lead_back() {
        assert_eq!((date(10_956), date(47_482)), (None, None));
        assert_eq!((date(10_957).as_deref(), date(47_481).as_deref()), (Some("2000-01-01"), Some("2099-12-31")));
        let mut last = String::new();
        for day in 10_957..=47_481 {
            let text = date(day).unwrap();
            assert!(text > last && of_date(&text) == Some(Ok(day)), "{day}: {text}");
            last = text;
        }
        assert_eq!([0, 1, 2_932_896, u32::MAX - 1, u32::MAX].map(date), [None, None, None, None, None]);
    }

    #[test]
    fn what_is_no_date() {
        for text in ["2026-02-29", "2100-02-29", "2026-00-10", "2026-13-01", "2026-04-31", "2026-01-00", "0000-01-01"] {
            assert_eq!(of_date(text), Some(Err(NoDay::NoDate)), "{text}");
        }
        for text in ["1969-12-31", "0001-01-01", "1900-02-28"] {
            assert_eq!(of_date(text), Some(Err(NoDay::TooEarly)), "{text}");
        }
        for text in
            ["", "20543", "2026-3-31", "26-03-31", "12026-03-31", "2026-03-31 ", "2026/03/31", "2026-03", "-2026-03-31"]
        {
            assert_eq!(of_date(text), None, "{text}");
        }
    }

    #[test]
    fn in_words() {
        assert_eq!(
            (shown(0), shown(7), shown(20_543)),
            ("day 0".into(), "day 7".into(), "day 20543 (2026-03-31)".into())
        );
        assert_eq!(
            (beside(0), beside(7), beside(20_543)),
            ("".into(), " (day 7)".into(), " (day 20543, 2026-03-31)".into())
        );
    }
}
