//! Open items, credit and interest held (articles 20(1), 27, 28).

use crate::closed::{self, TERM};
use crate::rule::Rule;
use crate::tax;

pub const MOST_ITEMS: usize = 72;
pub const MOST_CREDIT: u64 = 999_999_999;
pub const MOST_PAYMENT: u32 = 99_999_999;
/// Late days that bear nothing if there are no more.
pub const FREE_DAYS: u32 = 10;

#[derive(Clone, Copy, Debug, PartialEq, Eq)]
pub enum Kind {
    Interest,
    Price,
}

/// The due day of an item posted on a day.
pub fn due_day(obligation: u32, closed: &[u16], rule: Rule) -> u32 {
    if rule == Rule::ListedKept {
        obligation + TERM
    } else {
        closed::due_day(obligation, closed)
    }
}

/// An amount without the tax that it holds by the rate of a day (27).
pub fn body(amount: u64, day: u32, rule: Rule) -> u64 {
    amount - tax::within(amount, day, rule)
}

/// The interest of a sum of body yen times late days, cut to a yen (27).
pub fn interest_on(sum: u64) -> u64 {
    sum * 274 / 1_000_000
}

/// The interest of a price item that is paid in one sum on a day.
pub fn interest(amount: u64, obligation: u32, due: u32, day: u32, rule: Rule) -> u64 {
    let mut item = Item::posted(Kind::Price, amount, obligation, due, rule);
    item.pay(amount, day, true, rule);
    item.interest(day, rule)
}

// ---- One item ----

#[derive(Clone, Copy, Debug, PartialEq, Eq)]
pub struct Item {
    pub kind: Kind,
    pub amount: u64,
    pub unpaid: u64,
    /// What of the body is still unpaid.
    pub share: u64,
    /// The sum of body yen times late days so far.
    pub gathered: u64,
    pub obligation: u32,
    pub due: u32,
}

impl Item {
    /// An item with nothing paid. The body of a price item is by the rate of
    /// its obligation day; interest has none.
    pub fn posted(kind: Kind, amount: u64, obligation: u32, due: u32, rule: Rule) -> Item {
        let taxed = if rule == Rule::DueBody { due } else { obligation };
        let share = match kind {
            Kind::Interest => 0,
            Kind::Price => body(amount, taxed, rule),
        };
        Item { kind, amount, unpaid: amount, share, gathered: 0, obligation, due }
    }

    /// Pays a part of what is unpaid: the body first and the tax last. A part more
    /// than ten days late adds its body share × its late days, but for a blunder.
    pub fn pay(&mut self, part: u64, day: u32, adds: bool, rule: Rule) {
        if rule == Rule::SettlingBody && self.kind == Kind::Price {
            let paid = self.amount - self.unpaid;
            self.share = body(self.amount, day, rule).saturating_sub(paid);
        }
        let of_body = self.body_of(part, rule);
        self.unpaid -= part;
        self.share -= of_body;
        let sum = of_body * self.counted_days(day, rule);
        if adds {
            self.gathered += if rule == Rule::CutEachPart { interest_on(sum) } else { sum };
        }
    }

    /// What of a part goes to the body.
    fn body_of(&self, part: u64, rule: Rule) -> u64 {
        match rule {
            Rule::TaxFirst => part.saturating_sub(self.unpaid - self.share),
            Rule::ProRata => part * self.share / self.unpaid,
            _ => part.min(self.share),
        }
    }

    /// Late days that count: none up to ten, or all from the due day.
    fn counted_days(&self, day: u32, rule: Rule) -> u64 {
        let from = if rule == Rule::UnmovedLate { self.obligation + TERM } else { self.due };
        let late = day.saturating_sub(from);
        let free = if rule == Rule::TenthDayAdds { FREE_DAYS - 1 } else { FREE_DAYS };
        if late <= free {
            0
        } else if rule == Rule::LateFromEleventh {
            u64::from(late - FREE_DAYS)
        } else {
            u64::from(late)
        }
    }

    /// The interest that arises as the item is settled. Interest bears none.
    fn interest(&self, day: u32, rule: Rule) -> u64 {
        match (self.kind, rule) {
            (Kind::Interest, _) => 0,
            (Kind::Price, Rule::CutEachPart) => self.gathered,
            (Kind::Price, Rule::WholeBody) => {
                let whole = body(self.amount, self.obligation, rule);
                interest_on(whole * self.counted_days(day, rule))
            }
            (Kind::Price, _) => interest_on(self.gathered),
        }
    }
}

// ---- The ledger ----

/// The ledger; items are oldest first.
#[derive(Clone, Debug, Default, PartialEq, Eq)]
pub struct Ledger {
    pub items: Vec<Item>,
    pub credit: u64,
    pub held: u64,
}

impl Ledger {
    pub fn unpaid(&self) -> u64 {
        self.items.iter().map(|item| item.unpaid).sum()
    }

    fn post(&mut self, kind: Kind, amount: u64, day: u32, due: u32, rule: Rule) {
        self.items.push(Item::posted(kind, amount, day, due, rule));
    }

    /// Posts interest held, if any; gives what it posted.
    pub fn post_held(&mut self, day: u32, due: u32, rule: Rule) -> u64 {
        let posted = std::mem::take(&mut self.held);
        if posted > 0 {
            self.post(Kind::Interest, posted, day, due, rule);
        }
        posted
    }

    /// A net above zero is a price item, one below zero adds to credit (20(1)).
    pub fn post_net(&mut self, net: i64, day: u32, due: u32, rule: Rule) {
        if net > 0 {
            self.post(Kind::Price, net.unsigned_abs(), day, due, rule);
        } else {
            self.credit += net.unsigned_abs();
        }
    }

    /// Credit pays the oldest item first (28). Interest that arises is held. Late
    /// parts add to their items' sums, but for a blunder.
    pub fn settle(&mut self, day: u32, adds: bool, rule: Rule) {
        while self.credit > 0 && !self.items.is_empty() {
            let oldest = &mut self.items[0];
            let part = self.credit.min(oldest.unpaid);
            oldest.pay(part, day, adds, rule);
            self.credit -= part;
            if oldest.unpaid == 0 {
                self.held += self.items.remove(0).interest(day, rule);
            }
        }
    }
}
