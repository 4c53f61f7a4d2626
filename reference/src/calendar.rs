//! Days as numbers (0 is 1 January 2000) and Gregorian dates ("Notices").

/// 1 January 2000.
pub const FIRST_DAY: u32 = 0;
/// 31 December 2099.
pub const LAST_DAY: u32 = 36_524;
/// The last day a call may have (number 2): its due day can be moved over 400
/// closed days and is still a day.
pub const LAST_CALL_DAY: u32 = 36_094;

const FIRST_YEAR: u32 = 2000;
const LAST_YEAR: u32 = 2099;

#[derive(Clone, Copy, Debug, PartialEq, Eq)]
pub struct Date {
    pub year: u32,
    pub month: u32,
    pub day: u32,
}

fn is_leap(year: u32) -> bool {
    (year.is_multiple_of(4) && !year.is_multiple_of(100)) || year.is_multiple_of(400)
}

fn days_in_year(year: u32) -> u32 {
    if is_leap(year) {
        366
    } else {
        365
    }
}

fn days_in_month(year: u32, month: u32) -> u32 {
    match month {
        4 | 6 | 9 | 11 => 30,
        2 if is_leap(year) => 29,
        2 => 28,
        _ => 31,
    }
}

/// The date of a day number; none above the last day.
pub fn date_of(number: u32) -> Option<Date> {
    if number > LAST_DAY {
        return None;
    }
    let mut left = number;
    let mut year = FIRST_YEAR;
    while left >= days_in_year(year) {
        left -= days_in_year(year);
        year += 1;
    }
    let mut month = 1;
    while left >= days_in_month(year, month) {
        left -= days_in_month(year, month);
        month += 1;
    }
    Some(Date { year, month, day: left + 1 })
}

/// The number of a date; none if it is not a day from first to last.
pub fn number_of(date: Date) -> Option<u32> {
    let Date { year, month, day } = date;
    if !(FIRST_YEAR..=LAST_YEAR).contains(&year) || !(1..=12).contains(&month) {
        return None;
    }
    if day < 1 || day > days_in_month(year, month) {
        return None;
    }
    let years: u32 = (FIRST_YEAR..year).map(days_in_year).sum();
    let months: u32 = (1..month).map(|m| days_in_month(year, m)).sum();
    Some(years + months + day - 1)
}
