//! The closed days of generated lives: lists over a life's due days and beside
//! them, lists at the bounds and broken ones, and files of another form.

use crate::account::Account;
use crate::calendar::{date_of, LAST_DAY};
use crate::calls;
use crate::closed::{self, Closed, MOST_CLOSED};
use crate::frames;
use crate::generator::{pick, Numbers};
use crate::ledger::Kind;
use crate::profiles::END_OF_CALENDAR;
use crate::rule::Rule;

/// Makes the closed days of a life from its lines.
pub type List = fn(&mut Numbers, &[u8]) -> Closed;

const TO_THE_LAST_DAY: &str = "up to the last day";

/// Name, weight and maker of each kind.
pub const LISTS: [(&str, u32, List); 15] = [
    ("none", 60, |_, _| Closed::none()),
    ("runs over due days", 7, runs),
    ("Sundays and holidays", 5, sundays),
    ("400 days in a run", 3, longest_run),
    ("beside due days", 3, beside),
    ("10 or 11 days late", 6, days_late),
    (TO_THE_LAST_DAY, 3, to_the_last_day),
    ("any days", 2, any_days),
    ("empty", 2, |_, _| Closed::of(&[])),
    ("two equal", 1, two_equal),
    ("falling", 1, falling),
    ("above the last day", 1, above_the_last_day),
    ("401 entries", 1, |numbers, _| rising(numbers, MOST_CLOSED + 1)),
    ("more than 401 entries", 1, too_many),
    ("file of another form", 4, other_form),
];

/// The place of a kind, and the closed days that it makes for a life of a
/// profile.
pub fn list(seed: u64, profile: &str, input: &[u8]) -> (usize, Closed) {
    let mut numbers = Numbers::new(!seed);
    let place = pick(&mut numbers, &LISTS.map(|list| weight(list, profile)));
    (place, (LISTS[place].2)(&mut numbers, input))
}

/// Only lives at the end of the calendar can have items due on the last day.
fn weight((name, weight, _): (&str, u32, List), profile: &str) -> u32 {
    if name == TO_THE_LAST_DAY && profile == END_OF_CALENDAR {
        20 * weight
    } else {
        weight
    }
}

// ---- The days of a life ----

/// What a life comes to without closed days.
#[derive(Default)]
struct Days {
    /// Due days of its items, in order.
    due: Vec<u32>,
    /// Due day and settling day of its price items.
    settled: Vec<(u32, u32)>,
}

impl Days {
    fn of(input: &[u8]) -> Days {
        let mut days = Days::default();
        let mut account = Account::new();
        for line in frames::lines(input) {
            let open = price_due_days(&account);
            account = calls::take(account, frames::parse(line), &[], Rule::Right).0;
            days.note(&open, &account);
        }
        days.due.dedup();
        days
    }

    /// Notes what a call posted and what of the open items it settled.
    fn note(&mut self, open: &[u32], account: &Account) {
        let today = account.latest;
        let posted = account.ledger.items.iter().filter(|item| item.obligation == today);
        self.due.extend(posted.map(|item| item.due));
        let still = price_due_days(account);
        let settled = open.iter().filter(|due| !still.contains(due));
        self.settled.extend(settled.map(|&due| (due, today)));
    }

    /// One of the due days; of a life without items any day.
    fn some_due(&self, numbers: &mut Numbers) -> u32 {
        match self.due.len() as u32 {
            0 => numbers.below(LAST_DAY),
            count => self.due[numbers.below(count) as usize],
        }
    }
}

fn price_due_days(account: &Account) -> Vec<u32> {
    let items = account.ledger.items.iter();
    items.filter(|item| item.kind == Kind::Price).map(|item| item.due).collect()
}

// ---- Lists within bounds ----

/// Some days as a list, the first 400 of them; one file in three lacks its
/// last LF.
fn listed(numbers: &mut Numbers, mut days: Vec<u32>) -> Closed {
    days.retain(|&day| day <= LAST_DAY);
    days.sort_unstable();
    days.dedup();
    days.truncate(MOST_CLOSED);
    let list: Vec<u16> = days.iter().map(|&day| day as u16).collect();
    let mut file = closed::file_of(&list);
    if numbers.below(3) == 0 {
        file.pop();
    }
    Closed::in_file(file)
}

/// Runs over due days, some from days before them.
fn runs(numbers: &mut Numbers, input: &[u8]) -> Closed {
    let days = Days::of(input);
    let first = days.some_due(numbers);
    let mut list = vec![first];
    for &due in days.due.iter().filter(|&&due| due >= first) {
        if numbers.chance(60) {
            let from = due - numbers.pick(&[0, 0, 0, 1, 3, 7]);
            list.extend(from..from + numbers.pick(&[1, 1, 2, 3, 5, 8, 12, 40]));
        }
    }
    listed(numbers, list)
}

/// Months and days on which banks are closed.
const HOLIDAYS: [(u32, u32); 11] =
    [(1, 1), (1, 2), (1, 3), (2, 11), (4, 29), (5, 3), (5, 4), (5, 5), (11, 3), (11, 23), (12, 31)];

/// 1 January 2000 was a Saturday.
fn is_sunday(day: u32) -> bool {
    day % 7 == 1
}

fn is_holiday(day: u32) -> bool {
    date_of(day).is_some_and(|date| HOLIDAYS.contains(&(date.month, date.day)))
}

fn sundays(numbers: &mut Numbers, input: &[u8]) -> Closed {
    let first = Days::of(input).some_due(numbers);
    let closed = (first..=LAST_DAY).filter(|&day| is_sunday(day) || is_holiday(day));
    let list = closed.take(MOST_CLOSED).collect();
    listed(numbers, list)
}

/// As long a run as can be, about the latest due day or another.
fn longest_run(numbers: &mut Numbers, input: &[u8]) -> Closed {
    let days = Days::of(input);
    let due = match days.due.last() {
        Some(&last) if numbers.chance(50) => last,
        _ => days.some_due(numbers),
    };
    let from = match numbers.below(8) {
        0 => due + 1,
        1 => due.saturating_sub(1),
        2 => due.saturating_sub(399),
        3 => due.saturating_sub(400),
        4 => due.saturating_sub(numbers.below(400)),
        _ => due,
    };
    listed(numbers, (from..from + MOST_CLOSED as u32).collect())
}

/// Days around due days, but on none.
fn beside(numbers: &mut Numbers, input: &[u8]) -> Closed {
    let days = Days::of(input);
    let first = days.some_due(numbers);
    let mut list = Vec::new();
    for &due in days.due.iter().filter(|&&due| due >= first) {
        match numbers.below(4) {
            0 => list.push(due - 1),
            1 => list.push(due + 1),
            2 => list.extend([due - 1, due + 1]),
            _ => list.extend([due - 2, due - 1, due + 1, due + 2]),
        }
    }
    list.retain(|day| days.due.binary_search(day).is_err());
    listed(numbers, list)
}

/// Runs that make items 10 or 11 days late which were later, and over the due
/// days of items that were so late.
fn days_late(numbers: &mut Numbers, input: &[u8]) -> Closed {
    let days = Days::of(input);
    let mut list = Vec::new();
    for (due, settled) in days.settled {
        let moved = match settled.saturating_sub(due) {
            0..=9 => continue,
            10 | 11 => due + numbers.pick(&[1, 1, 2, 9, 30]),
            _ => settled - numbers.pick(&[10, 11]),
        };
        if moved - due <= 60 {
            list.extend(due..moved);
        }
    }
    listed(numbers, list)
}

/// Lists with the last day, or with the one before, and with runs over the
/// latest due day that reach for it.
fn to_the_last_day(numbers: &mut Numbers, input: &[u8]) -> Closed {
    let last_due = Days::of(input).due.last().copied().unwrap_or(LAST_DAY - 400);
    let most = MOST_CLOSED as u32;
    let mut list: Vec<u32> = match numbers.below(6) {
        0 => vec![0],
        1 => (LAST_DAY + 1 - numbers.between(1, most)..LAST_DAY).collect(),
        2 => (last_due..last_due + numbers.between(1, most - 1)).collect(),
        3 => (last_due..last_due + most - 1).collect(),
        _ => (last_due..last_due + most).collect(),
    };
    if list.len() < MOST_CLOSED {
        list.push(LAST_DAY);
    }
    listed(numbers, list)
}

fn any_days(numbers: &mut Numbers, _: &[u8]) -> Closed {
    let count = numbers.between(1, MOST_CLOSED as u32) as usize;
    rising(numbers, count)
}

/// So many days, about the same from one to the next.
fn rising(numbers: &mut Numbers, count: usize) -> Closed {
    let step = numbers.between(1, LAST_DAY / count as u32);
    let first = numbers.between(0, LAST_DAY - step * (count as u32 - 1));
    let list: Vec<u16> = (0..count as u32).map(|place| (first + step * place) as u16).collect();
    Closed::of(&list)
}

// ---- Lists that break a bound ----

/// A few days within bounds, to be broken.
fn few_days(numbers: &mut Numbers) -> Vec<u16> {
    let count = numbers.pick(&[2, 3, 10, 399]);
    rising(numbers, count).list().to_vec()
}

/// The first place of a list, the last but one, or any up to it.
fn some_place(numbers: &mut Numbers, list: &[u16]) -> usize {
    let last = list.len() - 2;
    match numbers.below(3) {
        0 => 0,
        1 => last,
        _ => numbers.between(0, last as u32) as usize,
    }
}

fn two_equal(numbers: &mut Numbers, _: &[u8]) -> Closed {
    let mut list = few_days(numbers);
    let place = some_place(numbers, &list);
    list[place + 1] = list[place];
    Closed::of(&list)
}

fn falling(numbers: &mut Numbers, _: &[u8]) -> Closed {
    let mut list = few_days(numbers);
    let place = some_place(numbers, &list);
    list.swap(place, place + 1);
    Closed::of(&list)
}

fn above_the_last_day(numbers: &mut Numbers, _: &[u8]) -> Closed {
    let mut list = few_days(numbers);
    let day = numbers.pick(&[LAST_DAY + 1, LAST_DAY + 2, 40_000, u32::from(u16::MAX)]);
    list.push(day as u16);
    Closed::of(&list)
}

fn too_many(numbers: &mut Numbers, _: &[u8]) -> Closed {
    let count = numbers.pick(&[402, 500, 800, 3_000]);
    rising(numbers, count)
}

// ---- Files of another form ----

/// Bytes that are put in place of a line, its LF included.
const OTHER_LINES: [&[u8]; 26] = [
    b"\n",
    b"0\n",
    b"003\n",
    b"0003b\n",
    b"00003b\n",
    b"003b003c\n",
    b"0x003b\n",
    b"59\n",
    b"003g\n",
    b"00:b\n",
    b"00/b\n",
    b"003`\n",
    b"00AB\n",
    b"003B\n",
    b"003b\r\n",
    b"\r\n",
    b"003\r\n",
    b" 003b\n",
    b"003b \n",
    b"003 \n",
    b"00 3b\n",
    b"003b\t\n",
    b"+03b\n",
    b"-03b\n",
    b"003\0\n",
    b"003\xff\n",
];

/// A good file with a line of another form in it, or one of line feeds alone.
fn other_form(numbers: &mut Numbers, _: &[u8]) -> Closed {
    let line = numbers.pick(&OTHER_LINES);
    if numbers.below(8) == 0 {
        return Closed::in_file(b"\n".repeat(numbers.between(1, 3) as usize));
    }
    let count = numbers.pick(&[1, 2, 5, 399]);
    let mut file = rising(numbers, count).file().unwrap_or_default().to_vec();
    let place = 5 * numbers.pick(&[0, count / 2, count]);
    file.splice(place..place, line.iter().copied());
    if line.len() > 1 && numbers.below(3) == 0 {
        file.pop();
    }
    Closed::in_file(file)
}
