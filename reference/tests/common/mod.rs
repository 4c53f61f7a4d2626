//! Calls in short, and accounts brought where a test needs them.
#![allow(dead_code)]

use reference::account::Account;
use reference::calls::{take, Answer, Call, What};
use reference::rule::Rule;
use reference::tariff::Fuel;

/// Average 83,090, k 0.
pub const BASE: Fuel = Fuel { lng: 83_130, propane: 75_000 };
/// Average 82,970, k 1 below the base.
pub const CHEAP: Fuel = Fuel { lng: 83_000, propane: 75_000 };
/// Average 84,850, k 17 above the base.
pub const DEAR: Fuel = Fuel { lng: 85_000, propane: 75_000 };

pub fn opening(day: u32, reading: u32, digits: u32) -> Call {
    Call { day, what: What::Opening { reading, digits } }
}

pub fn reading(day: u32, reading: u32) -> Call {
    Call { day, what: What::Reading { reading, fuel: BASE } }
}

pub fn reading_at(day: u32, reading: u32, fuel: Fuel) -> Call {
    Call { day, what: What::Reading { reading, fuel } }
}

pub fn missed(day: u32) -> Call {
    Call { day, what: What::Missed { fuel: BASE } }
}

pub fn missed_at(day: u32, fuel: Fuel) -> Call {
    Call { day, what: What::Missed { fuel } }
}

pub fn absent(day: u32) -> Call {
    Call { day, what: What::Absent { fuel: BASE } }
}

pub fn change(day: u32, old: u32, new: u32, digits: u32) -> Call {
    Call { day, what: What::Change { old, new, digits } }
}

pub fn stop(day: u32, reading: u32) -> Call {
    Call { day, what: What::Stop { reading, fuel: BASE } }
}

pub fn resumption(day: u32, reading: u32, digits: u32) -> Call {
    Call { day, what: What::Resumption { reading, digits } }
}

pub fn cancellation(day: u32, reading: u32) -> Call {
    Call { day, what: What::Cancellation { reading, fuel: BASE } }
}

pub fn payment(day: u32, yen: u32) -> Call {
    Call { day, what: What::Payment { yen } }
}

pub fn cancel_stopped(day: u32) -> Call {
    Call { day, what: What::CancelStopped }
}

/// An account, its last answer and the closed days of all its calls.
pub struct Run {
    pub account: Account,
    pub answer: Answer,
    closed: Vec<u16>,
}

impl Run {
    pub fn new() -> Run {
        Run::with_closed(&[])
    }

    pub fn with_closed(closed: &[u16]) -> Run {
        let closed = closed.to_vec();
        Run { account: Account::new(), answer: Answer::default(), closed }
    }

    /// All calls accepted.
    pub fn of(calls: &[Call]) -> Run {
        Run::of_closed(&[], calls)
    }

    /// All calls accepted, with closed days.
    pub fn of_closed(closed: &[u16], calls: &[Call]) -> Run {
        let mut run = Run::with_closed(closed);
        for call in calls {
            assert_eq!(run.call(*call), 0, "{call:?}");
        }
        run
    }

    /// One call; a declined one leaves the account and answers 0 fields.
    pub fn call(&mut self, call: Call) -> u8 {
        let before = self.account.clone();
        let (after, answer) = take(before.clone(), Some(call), &self.closed, Rule::Right);
        if answer.number != 0 {
            assert_eq!(after, before);
            assert_eq!(answer, Answer::declined(answer.number));
        }
        assert!(after.whole());
        self.account = after;
        self.answer = answer;
        self.answer.number
    }

    /// One call that is accepted; its answer.
    pub fn ok(&mut self, call: Call) -> &Answer {
        assert_eq!(self.call(call), 0, "{call:?}");
        &self.answer
    }

    pub fn open_items(&self) -> usize {
        self.account.ledger.items.len()
    }
}

/// Opened on day 0 at 0 with 4 digits; daily readings until so many items stand open.
pub fn with_items(items: u32) -> Run {
    let mut run = Run::of(&[opening(0, 0, 4)]);
    for day in 0..items {
        run.ok(reading(day, 0));
    }
    assert_eq!(run.open_items(), items as usize);
    run
}
