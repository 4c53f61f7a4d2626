//! Day numbers and Gregorian dates.

use reference::calendar::{date_of, number_of, Date, FIRST_DAY, LAST_CALL_DAY, LAST_DAY};

fn date(year: u32, month: u32, day: u32) -> Date {
    Date { year, month, day }
}

#[test]
fn first_and_last_day() {
    assert_eq!(date_of(FIRST_DAY), Some(date(2000, 1, 1)));
    assert_eq!(date_of(LAST_DAY), Some(date(2099, 12, 31)));
    assert_eq!(date_of(LAST_CALL_DAY), Some(date(2098, 10, 27)));
}

#[test]
fn beyond_the_last_day_is_none() {
    assert_eq!(date_of(LAST_DAY + 1), None);
    assert_eq!(date_of(u32::MAX), None);
    assert_eq!(number_of(date(2100, 1, 1)), None);
    assert_eq!(number_of(date(1999, 12, 31)), None);
}

#[test]
fn dates_that_are_none() {
    for (year, month, day) in [
        (2001, 2, 29),
        (2000, 2, 30),
        (2024, 4, 31),
        (2024, 0, 1),
        (2024, 13, 1),
        (2024, 1, 0),
        (2024, 1, 32),
    ] {
        assert_eq!(number_of(date(year, month, day)), None, "{year}-{month}-{day}");
    }
}

#[test]
fn leap_days() {
    assert_eq!(number_of(date(2000, 2, 29)), Some(59));
    assert_eq!(number_of(date(2000, 3, 1)), Some(60));
    assert_eq!(number_of(date(2001, 1, 1)), Some(366));
}

#[test]
fn all_days_there_and_back_in_order() {
    let mut last = None;
    for number in FIRST_DAY..=LAST_DAY {
        let date = date_of(number).unwrap();
        assert_eq!(number_of(date), Some(number));
        let key = (date.year, date.month, date.day);
        assert!(Some(key) > last);
        last = Some(key);
    }
}
