//! Households' files: twenty years of a home whose meter is read every month
//! and whose bills are paid.

use crate::calendar::{date_of, LAST_CALL_DAY};
use crate::calls::What;
use crate::generator::Maker;
use crate::tariff::Fuel;

/// Months of a file.
pub const MONTHS: u32 = 240;
/// Months that a meter serves.
pub const METER_MONTHS: u32 = 96;
/// Least and most days between two closings.
pub const MONTH_DAYS: (u32, u32) = (29, 32);
/// Within so many days of a closing its bill is paid, if it is not left lying.
pub const PAID_WITHIN: u32 = 26;
/// No file has more days.
const MOST_DAYS: u32 = (MONTHS + 1) * MONTH_DAYS.1;
/// Volume of each month from January, in percent of a mean one.
const SEASONS: [u32; 12] = [175, 170, 150, 110, 80, 60, 45, 40, 50, 75, 105, 140];

/// The file of one household.
pub fn household(seed: u64) -> Vec<u8> {
    let mut home = Home::new(seed);
    for month in 0..MONTHS {
        home.month(month);
    }
    home.maker.into_input()
}

/// How a household pays.
#[derive(Clone, Copy)]
enum Habit {
    /// What is owed: in percent of the bills, those left lying until the next
    /// one and those paid in two parts.
    Bills { late: u32, parts: u32 },
    /// A fixed sum a month.
    StandingOrder,
}

/// Each habit and how many of a hundred households have it.
const HABITS: [(u32, Habit); 4] = [
    (55, Habit::Bills { late: 3, parts: 1 }),
    (15, Habit::Bills { late: 25, parts: 5 }),
    (10, Habit::Bills { late: 5, parts: 50 }),
    (20, Habit::StandingOrder),
];

fn pick_habit(share: u32) -> Habit {
    let mut below = 0;
    let found = HABITS.iter().find(|(weight, _)| {
        below += weight;
        share < below
    });
    found.expect("the weights add up to a hundred").1
}

/// What comes of the month's visit to the meter.
#[derive(Clone, Copy, PartialEq, Eq)]
enum Visit {
    Read,
    Missed,
    /// Nobody lived there throughout, and that is known.
    Absent,
}

struct Home {
    maker: Maker,
    habit: Habit,
    fuel: Fuel,
    /// m³ of a mean month.
    usual: u32,
    /// m³ that went through the meter and were not read.
    unread: u32,
    /// The month of the next meter change.
    change: u32,
    /// Yen of the standing order.
    order: i64,
    /// Unpaid less credit when the order was last set.
    balance: i64,
}

impl Home {
    fn new(seed: u64) -> Home {
        let mut maker = Maker::new(seed);
        let day = maker.numbers.below(LAST_CALL_DAY - MOST_DAYS);
        let digits = maker.digits();
        maker.open_on(day, digits);
        let fuel = Fuel {
            lng: maker.fuel_price(65_000, 105_000),
            propane: maker.fuel_price(50_000, 90_000),
        };
        let usual = maker.numbers.between(8, 60);
        Home {
            habit: pick_habit(maker.numbers.below(100)),
            fuel,
            usual,
            unread: 0,
            change: maker.numbers.below(METER_MONTHS),
            order: i64::from(1_500 + 180 * usual),
            balance: 0,
            maker,
        }
    }

    /// Perhaps a new meter; the closing; what is paid before the next one.
    fn month(&mut self, month: u32) {
        let day = self.maker.now_closed() + self.maker.numbers.between(MONTH_DAYS.0, MONTH_DAYS.1);
        let visit = self.visit();
        let volume = if visit == Visit::Absent { 0 } else { self.volume(day) };
        self.unread += volume;
        if month == self.change {
            self.change_meter(day, volume);
        }
        self.drift_fuel();
        self.close(day, visit);
        self.blunder(day);
        match self.habit {
            Habit::Bills { late, parts } => self.pay_bill(day, late, parts),
            Habit::StandingOrder => self.pay_order(day, month),
        }
    }

    // ---- The meter ----

    /// Mostly a reading; never more than three misses in a row.
    fn visit(&mut self) -> Visit {
        let odds = match self.maker.account.estimates.len() {
            0 => 4,
            1 | 2 => 25,
            _ => 0,
        };
        if !self.maker.numbers.chance(odds) {
            Visit::Read
        } else if self.maker.numbers.chance(85) {
            Visit::Missed
        } else {
            Visit::Absent
        }
    }

    fn volume(&mut self, day: u32) -> u32 {
        let date = date_of(day).expect("a call's day is one of the calendar");
        let season = SEASONS[date.month as usize - 1];
        self.usual * season * self.maker.numbers.between(80, 120) / 10_000
    }

    /// Some of the month's volume goes through the old meter, the rest through a new one.
    fn change_meter(&mut self, closing: u32, volume: u32) {
        let day = (closing - self.maker.numbers.between(1, 8)).max(self.maker.now());
        let advance = self.unread - self.maker.numbers.between(0, volume);
        let old = self.maker.dial_after(advance);
        let (new, digits) = (self.maker.numbers.below(3), self.maker.digits());
        self.maker.send(day, What::Change { old, new, digits });
        self.unread -= advance;
        self.change += METER_MONTHS;
    }

    /// Fuel prices move by 2,000 yen a month at most.
    fn drift_fuel(&mut self) {
        let mut drift = |price: u32| {
            let moved = price - 2_000 + 10 * self.maker.numbers.between(0, 400);
            moved.clamp(50_000, 120_000)
        };
        self.fuel = Fuel { lng: drift(self.fuel.lng), propane: drift(self.fuel.propane) };
    }

    fn close(&mut self, day: u32, visit: Visit) {
        let fuel = self.fuel;
        let what = match visit {
            Visit::Read => {
                let advance = std::mem::take(&mut self.unread);
                What::Reading { reading: self.maker.dial_after(advance), fuel }
            }
            Visit::Missed => What::Missed { fuel },
            Visit::Absent => What::Absent { fuel },
        };
        self.maker.send(day, what);
    }

    /// Seldom a line after the closing that is declined.
    fn blunder(&mut self, day: u32) {
        let (dial, fuel) = (self.maker.account.dial, self.fuel);
        let misread = self.maker.dial_after(self.maker.span() / 2 + 1);
        match self.maker.numbers.below(500) {
            0 => self.maker.send(day, What::Reading { reading: dial, fuel }),
            1 => self.maker.send(day - 1, What::Reading { reading: dial, fuel }),
            2 => self.maker.send(day + 1, What::Reading { reading: misread, fuel }),
            3 => self.maker.pay(day, 0),
            4 => self.maker.line(b""),
            5 => self.maker.line(b"reading not legible"),
            _ => return,
        };
    }

    // ---- Money ----

    /// What is owed, in one sum or two; only today's bill may be left lying.
    fn pay_bill(&mut self, day: u32, late: u32, parts: u32) {
        let Some(oldest) = self.maker.account.ledger.items.first() else {
            return;
        };
        if oldest.obligation == day && self.maker.numbers.chance(late) {
            return;
        }
        let owed = self.maker.unpaid();
        let mut rest = owed;
        let mut first = 4;
        if self.maker.numbers.chance(parts) {
            let part = self.maker.numbers.between(1, owed / 2 + 1).min(owed);
            let on = day + self.maker.numbers.between(4, 12);
            self.maker.pay(on, part);
            rest -= part;
            first = 14;
        }
        let on = day + self.maker.numbers.between(first, PAID_WITHIN);
        self.maker.pay(on, rest);
    }

    /// The order's sum, or what is owed once a bill is overdue.
    fn pay_order(&mut self, day: u32, month: u32) {
        let on = day + 15;
        let oldest = self.maker.account.ledger.items.first();
        let overdue = oldest.is_some_and(|item| item.due < on);
        let yen = if overdue { self.maker.unpaid() } else { self.order as u32 };
        self.maker.pay(on, yen);
        if month % 12 == 11 {
            self.set_order();
        }
    }

    /// A sum that would even out another year like this one, in full hundreds.
    fn set_order(&mut self) {
        let ledger = &self.maker.account.ledger;
        let balance = ledger.unpaid() as i64 - ledger.credit as i64;
        let needed = self.order + (2 * balance - self.balance) / 12;
        self.order = (needed.max(1_000) + 99) / 100 * 100;
        self.balance = balance;
    }
}
