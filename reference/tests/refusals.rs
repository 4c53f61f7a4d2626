//! Each number, and which wins when two causes meet.

mod common;

use common::*;
use reference::account::{Account, Status};
use reference::calls::{take, What};
use reference::ledger::{Item, Kind};
use reference::rule::Rule;
use reference::tariff::Fuel;

fn supplied() -> Run {
    Run::of(&[opening(10, 100, 4)])
}

fn stopped() -> Run {
    Run::of(&[opening(10, 100, 4), stop(40, 120)])
}

fn cancelled() -> Run {
    Run::of(&[opening(10, 100, 4), cancellation(40, 120)])
}

fn with_fuel(lng: u32, propane: u32) -> u8 {
    supplied().call(reading_at(40, 120, Fuel { lng, propane }))
}

#[test]
fn number_40_comes_before_all_but_14() {
    let (account, answer) = take(Account::new(), None, &[], Rule::Right);
    assert_eq!(answer.number, 40);
    assert_eq!(account, Account::new());
}

#[test]
fn number_1_on_a_new_account() {
    for call in [
        reading(0, 0),
        missed(0),
        absent(0),
        change(0, 0, 0, 4),
        stop(0, 0),
        resumption(0, 0, 4),
        cancellation(0, 0),
        payment(0, 1),
        cancel_stopped(0),
    ] {
        assert_eq!(Run::new().call(call), 1, "{call:?}");
    }
}

#[test]
fn number_1_on_a_supplied_account() {
    for call in [opening(40, 0, 4), resumption(40, 0, 4), cancel_stopped(40)] {
        assert_eq!(supplied().call(call), 1, "{call:?}");
    }
}

#[test]
fn number_1_on_a_stopped_account() {
    for call in [
        opening(40, 0, 4),
        reading(41, 120),
        missed(41),
        absent(41),
        change(41, 120, 0, 4),
        stop(41, 120),
        cancellation(41, 120),
    ] {
        assert_eq!(stopped().call(call), 1, "{call:?}");
    }
}

#[test]
fn number_1_on_a_cancelled_account() {
    for call in [
        opening(40, 0, 4),
        reading(41, 120),
        missed(41),
        absent(41),
        change(41, 120, 0, 4),
        stop(41, 120),
        resumption(41, 0, 4),
        cancellation(41, 120),
        cancel_stopped(41),
    ] {
        assert_eq!(cancelled().call(call), 1, "{call:?}");
    }
    assert_eq!(cancelled().call(payment(41, 1)), 0);
}

#[test]
fn number_2_above_the_last_day() {
    assert_eq!(supplied().call(reading(36_094, 120)), 0);
    assert_eq!(supplied().call(reading(36_095, 120)), 2);
    assert_eq!(Run::new().call(opening(65_535, 0, 4)), 2);
    assert_eq!(supplied().call(payment(36_094, 1)), 0);
    assert_eq!(supplied().call(payment(36_095, 1)), 2);
}

#[test]
fn number_3_before_the_latest_accepted_call() {
    assert_eq!(supplied().call(reading(9, 120)), 3);
    let mut run = supplied();
    run.ok(payment(30, 5));
    assert_eq!(run.call(payment(29, 5)), 3);
    assert_eq!(run.call(payment(50, 0)), 11);
    assert_eq!(run.call(payment(30, 5)), 0);
}

#[test]
fn number_4_digits() {
    for digits in [0, 3, 6, 255] {
        assert_eq!(Run::new().call(opening(0, 0, digits)), 4);
        assert_eq!(supplied().call(change(10, 100, 0, digits)), 4);
        assert_eq!(stopped().call(resumption(40, 0, digits)), 4);
    }
}

#[test]
fn number_5_readings() {
    assert_eq!(Run::new().call(opening(0, 9_999, 4)), 0);
    assert_eq!(Run::new().call(opening(0, 10_000, 4)), 5);
    assert_eq!(Run::new().call(opening(0, 99_999, 5)), 0);
    assert_eq!(Run::new().call(opening(0, 100_000, 5)), 5);
    assert_eq!(supplied().call(reading(40, 10_000)), 5);
    assert_eq!(supplied().call(stop(40, 10_000)), 5);
    assert_eq!(supplied().call(cancellation(40, u32::MAX)), 5);
    assert_eq!(stopped().call(resumption(40, 10_000, 4)), 5);
}

#[test]
fn number_5_at_a_change_has_two_spans() {
    assert_eq!(supplied().call(change(10, 10_000, 0, 5)), 5);
    assert_eq!(supplied().call(change(10, 100, 10_000, 5)), 0);
    assert_eq!(supplied().call(change(10, 100, 10_000, 4)), 5);
}

#[test]
fn number_6_fuel_prices() {
    assert_eq!(with_fuel(300_000, 300_000), 0);
    assert_eq!(with_fuel(0, 0), 0);
    assert_eq!(with_fuel(300_010, 0), 6);
    assert_eq!(with_fuel(0, 300_010), 6);
    assert_eq!(with_fuel(83_131, 75_000), 6);
    assert_eq!(with_fuel(83_130, 75_005), 6);
    let fuel = Fuel { lng: 1, propane: 0 };
    let mut call = missed(40);
    call.what = What::Missed { fuel };
    assert_eq!(supplied().call(call), 6);
    call.what = What::Absent { fuel };
    assert_eq!(supplied().call(call), 6);
}

#[test]
fn number_7_a_period_of_no_days() {
    let mut run = Run::of(&[opening(10, 100, 4), reading(10, 101)]);
    for call in [reading(10, 101), missed(10), absent(10), stop(10, 101), cancellation(10, 101)] {
        assert_eq!(run.call(call), 7, "{call:?}");
    }
    assert_eq!(run.call(change(10, 101, 0, 4)), 0);
    assert_eq!(run.call(reading(11, 1)), 0);
}

#[test]
fn number_8_a_seventh_miss() {
    let mut run = supplied();
    for day in 11..17 {
        run.ok(if day % 2 == 0 { missed(day) } else { absent(day) });
    }
    assert_eq!(run.call(missed(17)), 8);
    assert_eq!(run.call(absent(17)), 8);
    assert_eq!(run.ok(reading(17, 100)).finals.len(), 7);
    assert_eq!(run.call(missed(18)), 0);
}

#[test]
fn number_9_half_the_span() {
    let mut five = Run::of(&[opening(0, 0, 5)]);
    assert_eq!(five.call(reading(1, 50_001)), 9);
    assert_eq!(five.call(change(1, 50_001, 0, 4)), 9);
    assert_eq!(five.call(change(1, 50_000, 0, 4)), 0);
    assert_eq!(five.call(change(1, 5_001, 0, 5)), 9);
    assert_eq!(five.call(reading(1, 9_999)), 9);
    assert_eq!(five.call(reading(1, 5_000)), 0);
    assert_eq!(five.answer.finals, [55_000]);
}

#[test]
fn number_10_a_pool_above_99_999() {
    let mut run = Run::of(&[opening(0, 0, 5), change(0, 50_000, 0, 5)]);
    assert_eq!(run.call(change(0, 50_000, 0, 5)), 10);
    assert_eq!(run.call(reading(0, 50_000)), 10);
    assert_eq!(run.call(stop(0, 50_000)), 10);
    assert_eq!(run.call(change(0, 49_999, 0, 4)), 0);
    assert_eq!(run.call(cancellation(0, 1)), 10);
    assert_eq!(run.ok(reading(0, 0)).finals, [99_999]);
    assert_eq!(run.call(reading(1, 1)), 0);
}

#[test]
fn number_11_payments() {
    assert_eq!(supplied().call(payment(10, 0)), 11);
    assert_eq!(supplied().call(payment(10, 100_000_000)), 11);
    assert_eq!(supplied().call(payment(10, 99_999_999)), 0);
    assert_eq!(supplied().call(payment(10, 1)), 0);
}

#[test]
fn number_12_a_seventy_third_item() {
    let mut run = with_items(72);
    for call in [reading(72, 0), missed(72), absent(72), stop(72, 0), cancellation(72, 0)] {
        assert_eq!(run.call(call), 12, "{call:?}");
    }
    run.ok(payment(72, 31));
    assert_eq!(run.open_items(), 71);
    assert_eq!(run.call(reading(72, 0)), 0);
    assert_eq!(run.open_items(), 72);
}

#[test]
fn number_13_credit() {
    let mut run = supplied();
    for _ in 0..10 {
        run.ok(payment(10, 99_999_999));
    }
    assert_eq!(run.call(payment(10, 10)), 13);
    assert_eq!(run.ok(payment(10, 9)).credit, 999_999_999);
    assert_eq!(run.call(payment(10, 1)), 13);
    assert_eq!(run.call(reading(40, 100)), 0);
    assert_eq!(run.answer.credit, 999_999_999 - run.answer.net as u64);
}

#[test]
fn number_13_by_a_net_below_zero() {
    let mut run = Run::of(&[opening(0, 0, 4), reading(29, 3_000), missed(59)]);
    let unpaid = run.answer.unpaid;
    let mut missing = unpaid + 999_999_999;
    while missing > 0 {
        let yen = missing.min(99_999_999);
        run.ok(payment(59, yen as u32));
        missing -= yen;
    }
    assert_eq!(run.answer.credit, 999_999_999);
    for call in [reading(89, 3_010), stop(89, 3_010), cancellation(89, 3_010)] {
        assert_eq!(run.call(call), 13, "{call:?}");
    }
    assert_eq!(run.call(reading(89, 6_100)), 0);
}

#[test]
fn number_41_before_1_and_after_40() {
    let mut broken = Account::new();
    broken.pool = 1;
    assert!(!broken.whole());
    assert_eq!(take(broken.clone(), Some(payment(0, 1)), &[], Rule::Right).1.number, 41);
    assert_eq!(take(broken, None, &[], Rule::Right).1.number, 40);
}

type Breaks = fn(&mut Account);

#[test]
fn accounts_that_are_not_whole() {
    let sound = Run::of(&[opening(0, 0, 4), reading(29, 30), missed(59)]).account;
    assert!(sound.whole());
    let breaks: [Breaks; 25] = [
        |a| a.status = Status::New,
        |a| a.latest = 36_095,
        |a| a.status = Status::Supplied { start: 61 },
        |a| a.status = Status::Stopped { day: 60 },
        |a| a.digits = 3,
        |a| a.dial = 10_000,
        |a| a.pool = 100_000,
        |a| a.last_not_absent = 100_000,
        |a| a.estimates = vec![a.estimates[0]; 7],
        |a| a.estimates[0].closing = 60,
        |a| a.estimates[0].days = 0,
        |a| a.estimates[0].days = 36_496,
        |a| a.estimates[0].fuel.lng = 5,
        |a| a.estimates[0].volume = 100_000,
        |a| a.estimates[0].charged = 100_000_001,
        |a| a.ledger.items = vec![a.ledger.items[0]; 73],
        |a| a.ledger.items[0].unpaid = 0,
        |a| a.ledger.items[0].unpaid = a.ledger.items[0].amount + 1,
        |a| a.ledger.items[0].share = a.ledger.items[0].unpaid + 1,
        |a| a.ledger.items[0].gathered = 100_000_000_000_001,
        |a| a.ledger.items[0].obligation = 60,
        |a| a.ledger.items[0].due = 36_525,
        |a| a.ledger.credit = 1,
        |a| a.ledger.held = 1_000_000_000_001,
        |a| {
            a.status = Status::Cancelled;
            a.ledger.held = 1;
        },
    ];
    for (place, spoil) in breaks.iter().enumerate() {
        let mut account = sound.clone();
        spoil(&mut account);
        assert!(!account.whole(), "break {place}");
    }
}

#[test]
fn amounts_at_their_limits_are_whole() {
    let mut account = Run::of(&[opening(0, 0, 4)]).account;
    let item = |kind, amount| Item::posted(kind, amount, 0, 30, Rule::Right);
    account.ledger.items =
        vec![item(Kind::Price, 1_000_000_000), item(Kind::Interest, 1_000_000_000_000)];
    assert!(account.whole());
    account.ledger.items[0] = item(Kind::Price, 1_000_000_001);
    assert!(!account.whole());
    account.ledger.items[0] = item(Kind::Interest, 1_000_000_000_001);
    assert!(!account.whole());
    account.ledger.items.clear();
    account.ledger.credit = 999_999_999;
    assert!(account.whole());
    account.ledger.credit = 1_000_000_000;
    assert!(!account.whole());
}

#[test]
fn body_shares_and_sums_at_their_limits_are_whole() {
    let mut account = Run::of(&[opening(0, 0, 4)]).account;
    for kind in [Kind::Price, Kind::Interest] {
        let posted = Item::posted(kind, 1_000, 0, 30, Rule::Right);
        for unpaid in [1, 600, 1_000] {
            let gathered = 100_000_000_000_000;
            account.ledger.items = vec![Item { unpaid, share: unpaid, gathered, ..posted }];
            assert!(account.whole());
            account.ledger.items[0].share += 1;
            assert!(!account.whole());
            account.ledger.items[0] = Item { unpaid, share: 0, gathered: gathered + 1, ..posted };
            assert!(!account.whole());
        }
    }
}

// ---- Two causes ----

#[test]
fn status_wins_over_day() {
    assert_eq!(supplied().call(opening(36_095, 0, 3)), 1);
    assert_eq!(cancelled().call(reading(0, u32::MAX)), 1);
}

#[test]
fn last_day_wins_over_the_rest() {
    assert_eq!(supplied().call(change(36_095, 100, 0, 3)), 2);
}

#[test]
fn latest_day_wins_over_digits_and_payment() {
    assert_eq!(supplied().call(change(9, 100, 0, 3)), 3);
    assert_eq!(supplied().call(payment(9, 0)), 3);
}

#[test]
fn digits_win_over_readings() {
    assert_eq!(Run::new().call(opening(0, u32::MAX, 6)), 4);
    assert_eq!(supplied().call(change(10, u32::MAX, u32::MAX, 6)), 4);
}

#[test]
fn readings_win_over_fuel() {
    assert_eq!(supplied().call(reading_at(40, 10_000, Fuel { lng: 1, propane: 1 })), 5);
    assert_eq!(supplied().call(change(10, 5_101, 10_000, 4)), 5);
}

#[test]
fn fuel_wins_over_days() {
    let mut run = Run::of(&[opening(10, 100, 4), reading(10, 101)]);
    assert_eq!(run.call(reading_at(10, 101, Fuel { lng: 1, propane: 1 })), 6);
}

#[test]
fn days_win_over_misses_and_advance() {
    let mut run = supplied();
    for day in 11..17 {
        run.ok(missed(day));
    }
    assert_eq!(run.call(missed(16)), 7);
    assert_eq!(run.call(reading(16, 5_101)), 7);
}

#[test]
fn misses_win_over_items() {
    let mut run = with_items(66);
    for day in 66..72 {
        run.ok(missed(day));
    }
    assert_eq!(run.open_items(), 72);
    assert_eq!(run.call(missed(72)), 8);
    assert_eq!(run.call(reading(72, 0)), 12);
}

#[test]
fn advance_wins_over_pool() {
    let mut run = Run::of(&[opening(0, 0, 5), change(0, 50_000, 0, 5)]);
    assert_eq!(run.call(reading(0, 50_001)), 9);
    assert_eq!(run.call(reading(0, 50_000)), 10);
}

#[test]
fn pool_wins_over_items() {
    let mut run = with_items(71);
    run.ok(reading(71, 0));
    run.ok(change(71, 0, 0, 5));
    run.ok(change(71, 50_000, 0, 5));
    assert_eq!(run.call(reading(72, 50_000)), 10);
    assert_eq!(run.call(reading(72, 0)), 12);
}
