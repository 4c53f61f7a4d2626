//! The book holds on right accounts and breaks on wrong ones.

mod common;

use common::*;
use reference::account::Account;
use reference::book::{Book, Closing};
use reference::calls::{take, Call, What};
use reference::rule::Rule;

/// Feeds both; the book must agree after every call.
struct Pair {
    run: Run,
    book: Book,
    finals: u64,
}

impl Pair {
    fn new() -> Pair {
        Pair::with_closed(&[])
    }

    fn with_closed(closed: &[u16]) -> Pair {
        Pair { run: Run::with_closed(closed), book: Book::new(closed), finals: 0 }
    }

    fn call(&mut self, call: Call) -> u8 {
        let number = self.run.call(call);
        self.book.feed(&call, number);
        self.finals += self.run.answer.finals.iter().map(|&v| u64::from(v)).sum::<u64>();
        number
    }

    fn yen_agree(&self) -> bool {
        let ledger = &self.run.account.ledger;
        self.book.yen_agree(ledger.unpaid(), ledger.held, ledger.credit)
    }

    fn agree(&mut self, calls: &[Call]) {
        for call in calls {
            self.call(*call);
            assert!(self.book.volumes_agree(self.finals), "{call:?}");
            assert!(self.yen_agree(), "{call:?}");
        }
    }
}

#[test]
fn sums_hold_through_a_life() {
    Pair::new().agree(&[
        payment(0, 5),
        opening(0, 9_990, 4),
        reading(29, 20),
        missed(59),
        missed(89),
        absent(119),
        reading(119, 20),
        payment(120, 4_000),
        change(120, 25, 99_990, 5),
        reading(150, 3),
        payment(400, 100_000),
        stop(410, 90),
        resumption(410, 5, 4),
        reading(410, 5),
        reading(440, 30),
        missed(470),
        stop(500, 35),
        payment(900, 7),
        cancel_stopped(901),
        payment(950, 4_000),
        payment(990, 90_000),
        payment(990, 90_000),
    ]);
}

#[test]
fn sums_hold_when_a_cancellation_brings_interest() {
    Pair::new().agree(&[
        opening(0, 0, 4),
        reading(29, 20),
        reading(59, 920),
        missed(89),
        payment(100, 4_850),
        payment(101, 150_000),
        cancellation(300, 920),
        payment(301, 1_000_000),
    ]);
}

#[test]
fn sums_hold_with_closed_days() {
    let calls = [
        opening(0, 0, 4),
        reading(29, 20),
        payment(73, 4_850),
        missed(74),
        payment(120, 100),
        stop(150, 30),
        resumption(151, 5, 5),
        payment(600, 7_000),
        reading(601, 25),
        payment(700, 1),
        cancellation(1_100, 30),
        payment(1_200, 900_000),
    ];
    let run: Vec<u16> = (59..459).collect();
    for closed in [&[][..], &[59], &[59, 60, 61, 104], &[58, 60], &run, &run[..200]] {
        Pair::with_closed(closed).agree(&calls);
    }
}

#[test]
fn a_broken_list_leaves_account_and_book() {
    let mut pair = Pair::with_closed(&[59, 59]);
    for call in [opening(0, 0, 4), reading(29, 20), payment(73, 4_850)] {
        assert_eq!(pair.call(call), 14);
        assert!(pair.yen_agree() && pair.book.volumes_agree(pair.finals));
    }
    assert_eq!(pair.run.account, Account::new());
}

#[test]
fn lateness_from_another_day_breaks_the_yen() {
    let mut pair = Pair { book: Book::new(&[]), ..Pair::with_closed(&[59, 60, 61]) };
    for call in [opening(0, 0, 4), reading(29, 20), payment(73, 4_850)] {
        pair.call(call);
    }
    assert!(!pair.yen_agree());
}

/// 130 m³ in 30 days, an estimate of them closed so many days after 7,212, and
/// 122 m³ in all; the first bill is paid late.
fn across_the_rise(after: u32) -> [Call; 6] {
    [
        opening(7_153 + after, 0, 4),
        reading_at(7_182 + after, 130, CHEAP),
        missed_at(7_212 + after, CHEAP),
        reading_at(7_242 + after, 252, CHEAP),
        payment(7_312 + after, 60_000),
        reading_at(7_313 + after, 300, DEAR),
    ]
}

#[test]
fn sums_hold_across_the_rise_of_the_tax() {
    for after in 0..3 {
        Pair::new().agree(&across_the_rise(after));
    }
}

/// 4,850 in six parts, in time, 10 days late and later; a net below zero that
/// pays a part of late items; credit that pays a part on posting.
fn paid_in_parts() -> [Call; 17] {
    [
        opening(0, 0, 4),
        reading(29, 20),
        payment(40, 1_000),
        payment(69, 500),
        payment(70, 1_300),
        payment(71, 1_300),
        payment(72, 700),
        payment(300, 50),
        reading(301, 60),
        missed(331),
        reading(361, 61),
        payment(372, 300),
        payment(400, 100_000),
        reading(430, 1_000),
        payment(480, 100_000),
        cancellation(481, 1_001),
        payment(900, 1_000_000),
    ]
}

#[test]
fn sums_hold_when_items_are_paid_in_parts() {
    let run: Vec<u16> = (50..450).collect();
    for closed in [&[][..], &[59, 331, 361], &run] {
        Pair::with_closed(closed).agree(&paid_in_parts());
    }
}

/// Absences before, between and behind misses, a stop and a resumption, readings
/// that revise and one of 0 m³.
fn with_absences() -> [Call; 19] {
    [
        opening(0, 0, 4),
        absent(29),
        missed(59),
        reading(89, 30),
        absent(119),
        missed(149),
        absent(179),
        absent(209),
        missed(239),
        reading(269, 51),
        absent(299),
        missed(329),
        stop(359, 70),
        resumption(359, 0, 4),
        absent(389),
        missed(419),
        reading(449, 12),
        absent(479),
        missed(509),
    ]
}

#[test]
fn sums_hold_with_absences() {
    let mut pair = Pair::new();
    for call in with_absences() {
        pair.agree(&[call]);
        assert_eq!(pair.book.last_not_absent(), pair.run.account.last_not_absent, "{call:?}");
    }
    pair.agree(&[payment(600, 20_000), cancellation(601, 20), payment(700, 1_000_000)]);
}

#[test]
fn the_book_tells_what_stands_before_a_period() {
    let mut pair = Pair::new();
    let mut told = Vec::new();
    for call in with_absences() {
        pair.agree(&[call]);
        if matches!(call.what, What::Missed { .. }) {
            let before = pair.book.before_latest();
            told.push((before.absences, before.nearest));
        }
    }
    assert_eq!(
        told,
        [
            (1, None),
            (1, Some(Closing::Real)),
            (2, Some(Closing::Missed)),
            (1, Some(Closing::Real)),
            (1, Some(Closing::Stop)),
            (1, Some(Closing::Real)),
        ]
    );
}

#[test]
fn the_book_tells_the_parts_of_a_call() {
    let mut pair = Pair::new();
    pair.agree(&paid_in_parts()[..4]);
    let told = |pair: &Pair| {
        let parts = pair.book.parts().iter();
        parts.map(|part| (part.from, part.to, part.late, part.bill.parts)).collect::<Vec<_>>()
    };
    assert_eq!(told(&pair), [(1_000, 1_500, 10, 2)]);
    pair.call(payment(60, 1));
    assert_eq!(told(&pair), []);
    pair.agree(&[reading(70, 40)]);
    assert_eq!(told(&pair), []);
    // 2,991 of the body left, 12 days late: 35,892, × 274 = 9.8 million.
    pair.agree(&[payment(71, 3_400)]);
    assert_eq!(told(&pair), [(1_500, 4_850, 12, 3), (0, 50, 0, 1)]);
    let settled = &pair.book.parts()[0];
    assert!(settled.settles() && settled.bill.late_parts == 1);
    assert_eq!((settled.bill.sum, settled.interest()), (35_892, 9));
    assert!(!pair.book.parts()[1].settles());
}

/// Whether the yen agree at the end of a life by a rule.
fn yen_agree_by(rule: Rule, calls: &[Call]) -> bool {
    let (mut account, mut book) = (Account::new(), Book::new(&[]));
    for call in calls {
        let (after, answer) = take(account, Some(*call), &[], rule);
        assert_eq!(answer.number, 0);
        book.feed(call, answer.number);
        account = after;
    }
    book.yen_agree(account.ledger.unpaid(), account.ledger.held, account.ledger.credit)
}

#[test]
fn a_blunder_about_the_tax_breaks_the_yen() {
    for rule in [
        Rule::CutFirstAtTen,
        Rule::RateLate,
        Rule::RateEarly,
        Rule::FirstDayRate,
        Rule::TodaysRate,
        Rule::SettlingBody,
        Rule::DueBody,
    ] {
        assert!((0..2).any(|after| !yen_agree_by(rule, &across_the_rise(after))), "{rule:?}");
    }
    assert!((0..2).all(|after| yen_agree_by(Rule::Right, &across_the_rise(after))));
}

#[test]
fn a_blunder_about_parts_breaks_the_yen() {
    for rule in [
        Rule::LateFromEleventh,
        Rule::TaxFirst,
        Rule::ProRata,
        Rule::CutEachPart,
        Rule::TenthDayAdds,
        Rule::WholeBody,
    ] {
        assert!(!yen_agree_by(rule, &paid_in_parts()[..8]), "{rule:?}");
    }
    assert!(yen_agree_by(Rule::CreditAddsNothing, &paid_in_parts()[..8]));
    let by_a_net =
        [opening(0, 0, 4), reading(29, 30), missed(59), reading(89, 51), payment(100, 5_995)];
    assert!(!yen_agree_by(Rule::CreditAddsNothing, &by_a_net));
    assert!(yen_agree_by(Rule::Right, &by_a_net) && yen_agree_by(Rule::Right, &paid_in_parts()));
}

#[test]
fn a_blunder_about_absences_breaks_the_yen() {
    let calls = with_absences();
    let breaks = |rule| (1..=calls.len()).any(|count| !yen_agree_by(rule, &calls[..count]));
    for rule in [
        Rule::AbsenceEmpties,
        Rule::SecondAbsenceEmpties,
        Rule::AbsenceBilled,
        Rule::ResumptionEmpties,
        Rule::StopNotCounted,
        Rule::ReadingNotCounted,
        Rule::ZeroPassedOver,
        Rule::PoolCounted,
    ] {
        assert!(breaks(rule), "{rule:?}");
    }
    assert!(!breaks(Rule::Right));
}

#[test]
fn an_account_that_posts_nothing_breaks_the_yen() {
    let mut pair = Pair::new();
    pair.agree(&[opening(0, 0, 4)]);
    pair.call(reading(29, 20));
    pair.run.account.ledger.items.clear();
    assert!(!pair.yen_agree());
}

#[test]
fn ignoring_later_readings_breaks_both() {
    let mut pair = Pair::new();
    pair.agree(&[opening(0, 0, 4), reading(29, 30), missed(59)]);
    pair.book.feed(&reading(89, 51), 0);
    pair.run.call(missed(89));
    pair.finals += 30;
    assert!(!pair.book.volumes_agree(pair.finals));
    assert!(!pair.yen_agree());
}

#[test]
fn declined_calls_leave_the_book() {
    let mut pair = Pair::new();
    pair.agree(&[
        opening(0, 0, 4),
        reading(29, 9_999),
        payment(29, 0),
        reading(29, 30),
        reading(29, 30),
        payment(28, 7),
        change(40, 6_000, 0, 4),
    ]);
}
