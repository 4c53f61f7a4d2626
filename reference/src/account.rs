//! The account and when it is whole ("The account and its calls").

use crate::calendar::{LAST_CALL_DAY, LAST_DAY};
use crate::ledger::{Item, Kind, Ledger, MOST_CREDIT, MOST_ITEMS};
use crate::meter::{self, MOST_POOL};
use crate::tariff::Fuel;

pub const MOST_ESTIMATES: usize = 6;
const MOST_DAYS: u32 = 36_495;
const MOST_CHARGE: u64 = 100_000_000;
const MOST_PRICE_ITEM: u64 = 1_000_000_000;
const MOST_INTEREST: u64 = 1_000_000_000_000;
const MOST_GATHERED: u64 = 100_000_000_000_000;

#[derive(Clone, Copy, Debug, PartialEq, Eq)]
pub enum Status {
    New,
    /// With the period's first day.
    Supplied {
        start: u32,
    },
    Stopped {
        day: u32,
    },
    Cancelled,
}

/// A period that stands estimated.
#[derive(Clone, Copy, Debug, PartialEq, Eq)]
pub struct Estimate {
    /// True for 03, whose periods share; false for 04, which keep 0.
    pub shares: bool,
    /// The closing day, whose tax rate it keeps.
    pub closing: u32,
    pub days: u32,
    pub fuel: Fuel,
    pub volume: u32,
    pub charged: u64,
}

#[derive(Clone, Debug, PartialEq, Eq)]
pub struct Account {
    pub status: Status,
    /// The day of the latest accepted call.
    pub latest: u32,
    pub digits: u32,
    pub dial: u32,
    pub pool: u32,
    /// The volume of the latest period that wasn't an 04 period, which an 03
    /// takes; 0 if there is none.
    pub last_not_absent: u32,
    /// Oldest first.
    pub estimates: Vec<Estimate>,
    pub ledger: Ledger,
}

impl Account {
    pub fn new() -> Account {
        Account {
            status: Status::New,
            latest: 0,
            digits: 0,
            dial: 0,
            pool: 0,
            last_not_absent: 0,
            estimates: Vec::new(),
            ledger: Ledger::default(),
        }
    }

    /// New as made, or another status and all that number 41 asks.
    pub fn whole(&self) -> bool {
        if self.status == Status::New {
            return *self == Account::new();
        }
        self.days_whole() && self.meter_whole() && self.estimates_whole() && self.ledger_whole()
    }

    fn days_whole(&self) -> bool {
        self.latest <= LAST_CALL_DAY
            && match self.status {
                Status::Supplied { start } => start <= self.latest + 1,
                Status::Stopped { day } => day <= self.latest,
                Status::New | Status::Cancelled => true,
            }
    }

    fn meter_whole(&self) -> bool {
        meter::digits_allowed(self.digits)
            && self.dial < meter::span(self.digits)
            && self.pool <= MOST_POOL
            && self.last_not_absent <= MOST_POOL
    }

    fn estimates_whole(&self) -> bool {
        self.estimates.len() <= MOST_ESTIMATES
            && self.estimates.iter().all(|estimate| estimate_whole(estimate, self.latest))
    }

    fn ledger_whole(&self) -> bool {
        let ledger = &self.ledger;
        ledger.items.len() <= MOST_ITEMS
            && ledger.items.iter().all(|item| item_whole(item, self.latest))
            && ledger.held <= MOST_INTEREST
            && (ledger.held == 0 || self.status != Status::Cancelled)
            && ledger.credit <= MOST_CREDIT
            && (ledger.credit == 0 || ledger.items.is_empty())
    }
}

impl Default for Account {
    fn default() -> Account {
        Account::new()
    }
}

fn estimate_whole(estimate: &Estimate, latest: u32) -> bool {
    estimate.closing <= latest
        && (1..=MOST_DAYS).contains(&estimate.days)
        && estimate.fuel.allowed()
        && estimate.volume <= MOST_POOL
        && estimate.charged <= MOST_CHARGE
}

fn item_whole(item: &Item, latest: u32) -> bool {
    let most = match item.kind {
        Kind::Interest => MOST_INTEREST,
        Kind::Price => MOST_PRICE_ITEM,
    };
    (1..=item.amount).contains(&item.unpaid)
        && item.amount <= most
        && item.share <= item.unpaid
        && item.gathered <= MOST_GATHERED
        && item.obligation <= latest
        && item.due <= LAST_DAY
}
