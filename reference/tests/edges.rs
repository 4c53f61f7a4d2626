//! Edges of days, estimates, revisions, the ledger and cancellations.

mod common;

use common::*;
use reference::account::Status;
use reference::ledger::{interest, Kind};
use reference::rule::Rule;
use reference::tariff::{price, Fuel};

/// Of a period from day 0 on.
fn at_base(days: u32, volume: u32) -> i64 {
    price(days - 1, days, BASE, volume, Rule::Right) as i64
}

// ---- Days ----

#[test]
fn opening_day_counts() {
    assert_eq!(Run::of(&[opening(5, 0, 4)]).ok(reading(5, 0)).net, at_base(1, 0));
    assert_eq!(Run::of(&[opening(0, 0, 4)]).ok(reading(24, 0)).net, 950);
    assert_eq!(Run::of(&[opening(0, 0, 4)]).ok(reading(23, 0)).net, at_base(24, 0));
}

#[test]
fn later_periods_count_from_the_closing_day() {
    let mut run = Run::of(&[opening(0, 0, 4), reading(10, 0)]);
    assert_eq!(run.ok(reading(11, 0)).net, at_base(1, 0));
    assert_eq!(run.ok(reading(35, 0)).net, at_base(24, 0));
    assert_eq!(run.ok(reading(60, 0)).net, 950);
}

#[test]
fn resumption_day_counts_unless_it_is_the_stop_day() {
    let stopped = [opening(0, 0, 4), stop(10, 0)];
    let mut later = Run::of(&stopped);
    later.ok(resumption(11, 0, 4));
    assert_eq!(later.ok(reading(11, 0)).net, at_base(1, 0));
    let mut same = Run::of(&stopped);
    same.ok(resumption(10, 0, 4));
    assert_eq!(same.account.status, Status::Supplied { start: 11 });
    assert_eq!(same.call(reading(10, 0)), 7);
    assert_eq!(same.ok(reading(11, 0)).net, at_base(1, 0));
}

#[test]
fn payment_between_stop_and_resumption_changes_no_days() {
    let mut run = Run::of(&[opening(0, 0, 4), stop(10, 0), payment(10, 1), resumption(10, 0, 4)]);
    assert_eq!(run.call(stop(10, 0)), 7);
}

#[test]
fn longest_period() {
    let mut run = Run::of(&[opening(0, 0, 4)]);
    let answer = run.ok(reading(36_094, 0));
    assert_eq!(answer.net, at_base(36_095, 0));
    assert_eq!(run.account.ledger.items[0].due, 36_124);
}

#[test]
fn meter_change_closes_nothing() {
    let mut run = Run::of(&[opening(0, 100, 4), change(15, 110, 50_000, 5)]);
    assert_eq!(run.answer.net, 0);
    assert!(run.answer.finals.is_empty());
    let answer = run.ok(reading(29, 50_010));
    assert_eq!(answer.finals, [20]);
    assert_eq!(answer.net, 4_850);
}

#[test]
fn turned_while_stopped_is_not_billed() {
    let mut run = Run::of(&[opening(0, 0, 4), stop(29, 20), resumption(60, 4_000, 4)]);
    assert_eq!(run.ok(reading(89, 4_020)).finals, [20]);
}

// ---- Estimates ----

#[test]
fn first_miss_bills_nothing() {
    let mut run = Run::of(&[opening(0, 0, 4)]);
    assert_eq!(run.ok(missed(29)).estimated, 0);
    assert_eq!(run.answer.net, 950);
    assert_eq!(run.ok(reading(59, 40)).finals, [0, 40]);
}

#[test]
fn resumption_is_no_new_start() {
    let mut run = Run::of(&[opening(0, 0, 4), stop(29, 30), resumption(40, 0, 4)]);
    assert_eq!(run.ok(missed(69)).estimated, 30);
}

#[test]
fn miss_after_a_revision_bills_the_revised_volume() {
    let mut run = Run::of(&[opening(0, 0, 4), reading(29, 30), missed(59), reading(89, 51)]);
    assert_eq!(run.answer.finals, [10, 11]);
    assert_eq!(run.ok(missed(119)).estimated, 11);
}

#[test]
fn absences_keep_nothing_and_share_nothing() {
    let calls = [opening(0, 0, 4), reading(29, 30), missed(59), absent(89), missed(119)];
    let mut run = Run::of(&calls);
    let answer = run.ok(reading(149, 40));
    assert_eq!(answer.finals, [3, 0, 3, 4]);
    assert_eq!(answer.net, at_base(30, 4) + 2 * at_base(30, 3) - 2 * at_base(30, 30));
}

#[test]
fn revision_keeps_its_own_days_and_fuel() {
    let dear = Fuel { lng: 200_000, propane: 100_000 };
    let mut run = Run::of(&[opening(0, 0, 4), reading_at(29, 100, dear)]);
    let mut miss = missed(39);
    miss.what = reference::calls::What::Missed { fuel: dear };
    let charged = run.ok(miss).net;
    let answer = run.ok(reading(69, 110));
    assert_eq!(answer.finals, [5, 5]);
    let revised = price(39, 10, dear, 5, Rule::Right) as i64;
    assert_eq!(answer.net, at_base(30, 5) + revised - charged);
}

#[test]
fn stop_and_cancellation_make_estimates_final() {
    let calls = [opening(0, 0, 4), reading(29, 30), missed(59)];
    assert_eq!(Run::of(&calls).ok(stop(89, 51)).finals, [10, 11]);
    assert_eq!(Run::of(&calls).ok(cancellation(89, 51)).finals, [10, 11]);
}

#[test]
fn pool_of_misses_spans_meter_changes() {
    let mut run =
        Run::of(&[opening(0, 0, 4), reading(29, 30), missed(59), change(60, 40, 9_995, 4)]);
    assert_eq!(run.ok(reading(89, 6)).finals, [10, 11]);
}

// ---- Ledger ----

#[test]
fn net_below_zero_is_credit_and_settles_the_oldest() {
    let run = Run::of(&[opening(0, 0, 4), reading(29, 30), missed(59), reading(89, 51)]);
    assert_eq!(run.answer.net, -655);
    assert_eq!(run.answer.credit, 0);
    let first = run.account.ledger.items[0];
    assert_eq!(first.unpaid, first.amount - 655);
    let paid = Run::of(&[
        opening(0, 0, 4),
        reading(29, 30),
        missed(59),
        payment(60, 2 * at_base(30, 30) as u32),
        reading(89, 51),
    ]);
    assert_eq!(paid.answer.credit, 655);
    assert_eq!(paid.answer.unpaid, 0);
}

#[test]
fn credit_is_used_as_items_are_posted() {
    let mut run = Run::of(&[opening(0, 0, 4), payment(0, 5_000)]);
    let answer = run.ok(reading(29, 20));
    assert_eq!((answer.net, answer.unpaid, answer.credit), (4_850, 0, 150));
    let answer = run.ok(reading(59, 40));
    assert_eq!((answer.unpaid, answer.credit), (4_700, 0));
}

#[test]
fn payment_settles_several_items() {
    let mut run = with_items(5);
    let answer = run.ok(payment(5, 31 * 3 + 10));
    assert_eq!(answer.unpaid, 31 * 2 - 10);
    assert_eq!(run.open_items(), 2);
    assert_eq!(run.account.ledger.items[0].unpaid, 21);
}

#[test]
fn interest_held_is_posted_before_the_price() {
    let run = Run::of(&[opening(0, 0, 4), reading(29, 20), payment(70, 4_850), missed(71)]);
    let kinds: Vec<Kind> = run.account.ledger.items.iter().map(|item| item.kind).collect();
    assert_eq!(kinds, [Kind::Interest, Kind::Price]);
    assert_eq!(run.answer.interest, 13);
    assert!(run.account.ledger.items.iter().all(|item| item.obligation == 71 && item.due == 101));
}

#[test]
fn interest_bears_none() {
    let mut run = Run::of(&[opening(0, 0, 4), reading(29, 20), payment(70, 4_850), missed(71)]);
    run.ok(payment(5_000, 13));
    assert_eq!(run.account.ledger.held, 0);
}

#[test]
fn closing_that_settles_late_items_holds_their_interest() {
    let mut run = Run::of(&[opening(0, 0, 4), reading(0, 5), reading(30, 905), missed(60)]);
    let first = run.account.ledger.items[0].amount;
    let answer = run.ok(reading(90, 910));
    assert!(answer.net < 0);
    assert_eq!(answer.interest, 0);
    let expected = interest(first, 0, 30, 90, Rule::Right);
    assert!(expected > 0);
    assert!(run.account.ledger.held >= expected);
}

#[test]
fn seventy_one_items_and_interest_held() {
    let mut run = with_items(72);
    run.ok(payment(1_000, 31));
    assert!(run.account.ledger.held > 0);
    assert_eq!(run.open_items(), 71);
    for call in [reading(1_001, 0), missed(1_001), stop(1_001, 0), cancellation(1_001, 0)] {
        assert_eq!(run.call(call), 12, "{call:?}");
    }
    run.ok(payment(1_001, 31));
    assert_eq!(run.call(reading(1_001, 0)), 0);
    assert_eq!(run.open_items(), 72);
}

#[test]
fn items_settled_in_the_same_call_do_not_count() {
    let mut run = with_items(72);
    run.ok(payment(72, 31 * 72 + 1_000_000));
    for day in 73..200 {
        run.ok(reading(day, 0));
    }
    assert_eq!(run.open_items(), 0);
}

// ---- Cancellations ----

#[test]
fn cancellation_posts_interest_held_then_the_net() {
    let mut run = Run::of(&[opening(0, 0, 4), reading(29, 20), payment(70, 4_850)]);
    let answer = run.ok(cancellation(71, 20));
    assert_eq!(answer.interest, 13);
    assert_eq!(run.account.status, Status::Cancelled);
    assert_eq!(run.open_items(), 2);
}

#[test]
fn cancelling_while_stopped_posts_interest_only() {
    let mut run = Run::of(&[opening(0, 0, 4), stop(29, 20), payment(70, 4_850)]);
    let answer = run.ok(cancel_stopped(71)).clone();
    assert_eq!((answer.interest, answer.net, answer.unpaid), (13, 0, 13));
    assert_eq!(run.account.ledger.held, 0);
    let mut with_credit = Run::of(&[opening(0, 0, 4), stop(29, 20), payment(70, 4_870)]);
    let answer = with_credit.ok(cancel_stopped(71));
    assert_eq!((answer.interest, answer.unpaid, answer.credit), (13, 0, 7));
}

#[test]
fn payment_on_a_cancelled_account_posts_its_interest() {
    let mut run = Run::of(&[opening(0, 0, 4), cancellation(29, 20)]);
    let answer = run.ok(payment(70, 4_850)).clone();
    assert_eq!((answer.interest, answer.unpaid, answer.credit), (13, 13, 0));
    let item = run.account.ledger.items[0];
    assert_eq!((item.kind, item.obligation, item.due), (Kind::Interest, 70, 100));
    let mut run = Run::of(&[opening(0, 0, 4), cancellation(29, 20)]);
    let answer = run.ok(payment(70, 4_855));
    assert_eq!((answer.interest, answer.unpaid, answer.credit), (13, 8, 0));
    let mut run = Run::of(&[opening(0, 0, 4), cancellation(29, 20)]);
    let answer = run.ok(payment(70, 4_900));
    assert_eq!((answer.interest, answer.unpaid, answer.credit), (13, 0, 37));
}

#[test]
fn interest_of_one_call_is_one_item() {
    let mut run = Run::of(&[opening(0, 0, 4), reading(29, 20), cancellation(59, 40)]);
    let expected =
        interest(4_850, 29, 59, 200, Rule::Right) + interest(4_850, 59, 89, 200, Rule::Right);
    assert_eq!(run.ok(payment(200, 9_700)).interest, expected);
    assert_eq!(run.open_items(), 1);
    assert_eq!(run.account.ledger.items[0].amount, expected);
}

#[test]
fn cancellation_with_a_net_below_zero_posts_its_own_interest() {
    // 900 m³, 155,050, of which 143,565 are body; all but 100,000 in time.
    let mut run = Run::of(&[opening(0, 0, 4), reading(29, 900), missed(59), payment(60, 55_050)]);
    // 141 days of 0 m³, 4,465, and 950 for the estimate.
    let answer = run.ok(cancellation(200, 900)).clone();
    assert_eq!(answer.net, 4_465 + 950 - 155_050);
    // The body's last 88,515 × 141 days late × 274 = 3,419.7 million.
    assert_eq!(answer.interest, 3_419);
    let second = 155_050 - (149_635 - 100_000);
    assert_eq!(answer.unpaid, second + 3_419);
    assert_eq!(run.account.ledger.held, 0);
    let kinds: Vec<Kind> = run.account.ledger.items.iter().map(|item| item.kind).collect();
    assert_eq!(kinds, [Kind::Price, Kind::Interest]);
}

#[test]
fn cancellation_posts_held_and_own_interest_as_two_items() {
    let mut run = Run::of(&[opening(0, 0, 4), reading(29, 20), reading(59, 920), missed(89)]);
    // 4,491 × 41 × 274 = 50.5 million.
    run.ok(payment(100, 4_850));
    assert_eq!(run.account.ledger.held, 50);
    // All of the second but a yen of its tax, 12 days late: 143,565 × 12 × 274
    // = 472.04 million.
    run.ok(payment(101, 155_049));
    let answer = run.ok(cancellation(300, 920)).clone();
    assert!(answer.net < 0);
    assert_eq!(answer.interest, 50 + 472);
    let kinds: Vec<Kind> = run.account.ledger.items.iter().map(|item| item.kind).collect();
    assert_eq!(kinds, [Kind::Price, Kind::Interest, Kind::Interest]);
    assert_eq!(run.account.ledger.items[1].amount, 50);
    assert_eq!(run.account.ledger.items[2].amount, 472);
}

#[test]
fn largest_interest_fits() {
    let mut run = Run::of(&[opening(0, 0, 5)]);
    let dear = Fuel { lng: 300_000, propane: 300_000 };
    run.ok(change(0, 50_000, 0, 5));
    run.ok(reading_at(0, 49_999, dear));
    let unpaid = run.answer.unpaid;
    run.ok(payment(36_094, unpaid as u32));
    assert_eq!(run.account.ledger.held, interest(unpaid, 0, 30, 36_094, Rule::Right));
    assert!(run.account.ledger.held > 100_000_000);
    assert_eq!(run.call(reading(36_094, 49_999)), 0);
}
