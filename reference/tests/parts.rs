//! Items paid in parts: what of the body is unpaid, what late parts add, and
//! the interest on settling, with figures worked by hand.

mod common;

use common::*;
use reference::account::Account;
use reference::calls::Call;
use reference::check::shares_hold;
use reference::ledger::{body, interest, Item, Kind};
use reference::rule::Rule;
use reference::tariff::Fuel;

/// 20 m³ in 30 days, 4,850 due on day 59: body 4,491, tax 359.
fn small_bill() -> Run {
    Run::of(&[opening(0, 0, 4), reading(29, 20)])
}

/// 80 m³, 15,650 due on day 59: body 14,491, tax 1,159.
fn large_bill() -> Run {
    Run::of(&[opening(0, 0, 4), reading(29, 80)])
}

/// Unpaid, body share and gathered sum of the oldest item.
fn oldest(run: &Run) -> (u64, u64, u64) {
    let item = run.account.ledger.items[0];
    (item.unpaid, item.share, item.gathered)
}

/// Interest held after payments of such days and yen.
fn held(mut run: Run, payments: &[(u32, u32)]) -> u64 {
    for &(day, yen) in payments {
        run.ok(payment(day, yen));
    }
    assert_eq!((run.open_items(), run.account.ledger.credit), (0, 0));
    run.account.ledger.held
}

// ---- Items ----

#[test]
fn a_price_item_starts_with_its_body_and_a_sum_of_0() {
    assert_eq!(oldest(&small_bill()), (4_850, 4_491, 0));
    assert_eq!(oldest(&large_bill()), (15_650, 14_491, 0));
    let at_ten = Run::of(&[opening(7_184, 0, 4), reading(7_213, 80)]);
    assert_eq!(oldest(&at_ten), (15_650, 14_228, 0));
    // 31 × 8 / 108 = 2.3.
    assert_eq!(oldest(&Run::of(&[opening(0, 0, 4), reading(0, 0)])), (31, 29, 0));
}

#[test]
fn an_interest_item_has_neither() {
    let mut run = small_bill();
    run.ok(payment(70, 4_850));
    run.ok(reading(71, 20));
    assert_eq!(oldest(&run), (13, 0, 0));
    run.ok(payment(500, 5));
    assert_eq!(oldest(&run), (8, 0, 0));
}

#[test]
fn the_smallest_bodies() {
    // The tax of 10 yen is cut to 0; of 11 yen it is 1 at ten per cent, of 14
    // yen 1 at eight.
    let of = |amount, day| body(amount, day, Rule::Right);
    assert_eq!([1, 10, 11, 13, 14].map(|amount| of(amount, 7_213)), [1, 10, 10, 12, 13]);
    assert_eq!([1, 10, 11, 13, 14].map(|amount| of(amount, 7_212)), [1, 10, 11, 13, 13]);
}

// ---- Parts ----

#[test]
fn a_part_goes_to_the_body_first_and_to_the_tax_last() {
    for (yen, share) in [(1, 4_490), (4_490, 1), (4_491, 0), (4_492, 0), (4_849, 0)] {
        let mut run = small_bill();
        run.ok(payment(40, yen));
        assert_eq!(oldest(&run), (4_850 - u64::from(yen), share, 0));
    }
}

#[test]
fn a_part_adds_from_the_eleventh_day_and_then_counts_all() {
    for (day, sum) in [(59, 0), (60, 0), (68, 0), (69, 0), (70, 22_000), (71, 24_000)] {
        let mut run = small_bill();
        run.ok(payment(day, 2_000));
        assert_eq!(oldest(&run), (2_850, 2_491, sum), "day {day}");
    }
}

#[test]
fn a_late_part_adds_only_what_of_it_is_body() {
    // 491 in time; 4,000 of the body and 200 of the tax 11 days late.
    let mut run = small_bill();
    run.ok(payment(50, 491));
    run.ok(payment(70, 4_200));
    assert_eq!(oldest(&run), (159, 0, 44_000));
    run.ok(payment(90, 100));
    assert_eq!(oldest(&run), (59, 0, 44_000));
}

#[test]
fn parts_of_one_day_are_as_one() {
    assert_eq!(held(small_bill(), &[(70, 1_000), (70, 1_500), (70, 2_350)]), 13);
    assert_eq!(held(small_bill(), &[(69, 1_000), (69, 1_500), (69, 2_350)]), 0);
}

// ---- Interest ----

#[test]
fn most_in_time_and_the_rest_in_spring() {
    // 2,491 × 100 × 274 = 68.3 million; on the whole body 397.05.
    assert_eq!(held(large_bill(), &[(50, 12_000), (159, 3_650)]), 68);
    assert_eq!(held(large_bill(), &[(159, 15_650)]), 397);
}

#[test]
fn the_sum_is_cut_once() {
    // 1,300 × 11 + 1,300 × 12 + 1,891 × 13 = 54,483, × 274 = 14.9 million; each
    // by itself 3.9, 4.3 and 6.7.
    assert_eq!(held(small_bill(), &[(70, 1_300), (71, 1_300), (72, 2_250)]), 14);
}

#[test]
fn parts_up_to_ten_days_late_bear_nothing() {
    assert_eq!(held(small_bill(), &[(40, 1_000), (60, 1_000), (69, 2_850)]), 0);
    // 491 × 11 × 274 = 1.48 million.
    assert_eq!(held(small_bill(), &[(40, 1_000), (69, 3_000), (70, 850)]), 1);
}

#[test]
fn eight_parts_of_one_item() {
    // In time 1 + 2,000 + 2,000; late 490 × 11 = 5,390, then tax only.
    // 5,390 × 274 = 1.48 million.
    let parts = [
        (59, 1),
        (60, 2_000),
        (69, 2_000),
        (70, 490),
        (71, 100),
        (100, 100),
        (1_000, 100),
        (2_000, 59),
    ];
    assert_eq!(held(small_bill(), &parts), 1);
}

#[test]
fn interest_arises_on_settling_even_if_the_last_part_is_all_tax() {
    // 4,491 × 11 = 49,401, × 274 = 13.5 million.
    let mut run = small_bill();
    run.ok(payment(70, 4_491));
    assert_eq!((oldest(&run), run.account.ledger.held), ((359, 0, 49_401), 0));
    run.ok(payment(400, 358));
    assert_eq!((oldest(&run), run.account.ledger.held), ((1, 0, 49_401), 0));
    run.ok(payment(4_000, 1));
    assert_eq!(run.account.ledger.held, 13);
}

#[test]
fn tax_bears_nothing_however_late() {
    assert_eq!(held(small_bill(), &[(69, 4_491), (36_094, 359)]), 0);
    // A yen of the body, 36,035 days late: 9.9 million.
    assert_eq!(held(small_bill(), &[(69, 4_490), (36_094, 360)]), 9);
}

#[test]
fn the_body_of_either_rate_in_parts() {
    // 14,228 in time; 263 or nothing left of the body, 100 days late: 7.2
    // million.
    for (obligation, expected) in [(7_212, 7), (7_213, 0)] {
        let run = Run::of(&[opening(obligation - 29, 0, 4), reading(obligation, 80)]);
        let parts = [(obligation + 30, 14_228), (obligation + 130, 1_422)];
        assert_eq!(held(run, &parts), expected, "obligation day {obligation}");
    }
}

#[test]
fn parts_on_both_sides_of_the_rise_have_one_body() {
    // 80 m³ at k 0 on day 7,150, due on 7,180: 10,000 on 7,200 and 4,491 of the
    // body on 7,220: 200,000 + 179,640, × 274 = 104.02 million.
    let run = Run::of(&[opening(7_121, 0, 4), reading(7_150, 80)]);
    assert_eq!(held(run, &[(7_200, 10_000), (7_220, 5_650)]), 104);
}

#[test]
fn late_days_of_a_part_count_from_a_moved_due_day() {
    // Due on day 62.
    for (day, sum) in [(72, 0), (73, 22_000)] {
        let mut run = Run::of_closed(
            &[59, 60, 61],
            &[opening(0, 0, 4), reading(29, 20), payment(day, 2_000)],
        );
        assert_eq!(oldest(&run), (2_850, 2_491, sum), "day {day}");
        // 2,491 × 14 = 34,874, × 274 = 9.6 million; with 22,000 15.6.
        run.ok(payment(76, 2_850));
        assert_eq!(run.account.ledger.held, if sum == 0 { 9 } else { 15 });
    }
}

#[test]
fn one_payment_for_the_rest_of_an_item_and_a_part_of_the_next() {
    // 4,491 × 41 × 274 = 50.5 million; of the second 1,150 × 11.
    let mut run = Run::of(&[opening(0, 0, 4), reading(29, 20), reading(59, 40)]);
    run.ok(payment(100, 6_000));
    assert_eq!((oldest(&run), run.account.ledger.held), ((3_700, 3_341, 12_650), 50));
    // 12,650 + 3,341 × 12 = 52,742, × 274 = 14.5 million.
    run.ok(payment(101, 3_700));
    assert_eq!(run.account.ledger.held, 50 + 14);
}

#[test]
fn a_bill_paid_in_one_sum_bears_the_same_as_before() {
    for amount in [1, 13, 31, 950, 4_850, 15_650, 155_050, 41_000_000] {
        for obligation in [0, 7_212, 7_213] {
            for late in [0, 1, 10, 11, 12, 100, 20_000] {
                let due = obligation + 30;
                let rate = if obligation < 7_213 { 8 } else { 10 };
                let body = amount - amount * rate / (100 + rate);
                let before = body * u64::from(late) * 274 / 1_000_000;
                let expected = if late <= 10 { 0 } else { before };
                let day = due + late;
                assert_eq!(interest(amount, obligation, due, day, Rule::Right), expected);
            }
        }
    }
}

#[test]
fn the_largest_bill_in_parts_decades_late() {
    let dear = Fuel { lng: 300_000, propane: 300_000 };
    let mut run = Run::of(&[opening(0, 0, 5), change(0, 50_000, 0, 5)]);
    run.ok(reading_at(0, 49_999, dear));
    let (unpaid, share, _) = oldest(&run);
    run.ok(payment(36_093, 20_000_000));
    assert_eq!(oldest(&run), (unpaid - 20_000_000, share - 20_000_000, 20_000_000 * 36_063));
    run.ok(payment(36_094, (unpaid - 20_000_000) as u32));
    let sum = 20_000_000 * 36_063 + (share - 20_000_000) * 36_064;
    assert_eq!(run.account.ledger.held, sum * 274 / 1_000_000);
}

// ---- Credit ----

#[test]
fn a_credited_net_is_a_payment_of_its_day() {
    // 30 m³, 6,650: body 6,158. The net of −655 pays 655 on day 89, 30 days
    // late; then 5,503 × 41 = 225,623. In all 245,273, × 274 = 67.2 million; on
    // the whole body 69.2.
    let mut run = Run::of(&[opening(0, 0, 4), reading(29, 30), missed(59), reading(89, 51)]);
    assert_eq!(oldest(&run), (5_995, 5_503, 19_650));
    run.ok(payment(100, 5_995));
    assert_eq!(run.account.ledger.held, 67);
}

#[test]
fn a_credited_net_up_to_ten_days_late_adds_nothing() {
    for (day, adds) in [(69, false), (70, true)] {
        let mut run = Run::of(&[opening(0, 0, 4), reading(29, 30), missed(59)]);
        let paid = run.ok(reading(day, 30)).net.unsigned_abs();
        let sum = if adds { paid * 11 } else { 0 };
        assert_eq!(oldest(&run), (6_650 - paid, 6_158 - paid, sum));
    }
}

#[test]
fn credit_pays_a_part_as_an_item_is_posted() {
    // 3,491 × 100 × 274 = 95.7 million.
    let mut run = Run::of(&[opening(0, 0, 4), payment(0, 1_000), reading(29, 20)]);
    assert_eq!(oldest(&run), (3_850, 3_491, 0));
    run.ok(payment(159, 3_850));
    assert_eq!(run.account.ledger.held, 95);
}

#[test]
fn credit_that_pays_into_the_tax_leaves_no_body() {
    let mut run = Run::of(&[opening(0, 0, 4), payment(0, 4_600), reading(29, 20)]);
    assert_eq!(oldest(&run), (250, 0, 0));
    run.ok(payment(10_000, 250));
    assert_eq!(run.account.ledger.held, 0);
}

#[test]
fn a_cancelled_account_posts_interest_with_the_last_part() {
    // 2,000 × 11 + 2,491 × 12 = 51,892, × 274 = 14.2 million.
    let mut run = Run::of(&[opening(0, 0, 4), cancellation(29, 20)]);
    assert_eq!(run.ok(payment(70, 2_000)).interest, 0);
    let answer = run.ok(payment(71, 2_860)).clone();
    assert_eq!((answer.interest, answer.unpaid, answer.credit), (14, 4, 0));
    assert_eq!(oldest(&run), (4, 0, 0));
}

// ---- Accounts handed in ----

#[test]
fn an_interest_item_handed_in_with_a_body_share() {
    let mut run = Run::of(&[opening(0, 0, 4)]);
    let posted = Item::posted(Kind::Interest, 1_000, 0, 30, Rule::Right);
    run.account.ledger.items = vec![Item { share: 600, gathered: 5, ..posted }];
    assert!(run.account.whole());
    run.ok(payment(41, 100));
    assert_eq!(oldest(&run), (900, 500, 1_105));
    run.ok(payment(10_000, 800));
    assert_eq!(oldest(&run), (100, 0, 1_105 + 500 * 9_970));
    run.ok(payment(10_000, 100));
    assert_eq!((run.open_items(), run.account.ledger.held), (0, 0));
}

#[test]
fn a_price_item_handed_in_with_another_share_and_sum() {
    // A share of 100 and a sum of 10^14: 5,000 more, × 274 = 27.4 thousand
    // million and 1.37.
    let mut run = Run::of(&[opening(0, 0, 4)]);
    let posted = Item::posted(Kind::Price, 1_000, 0, 30, Rule::Right);
    let item = Item { share: 100, gathered: 100_000_000_000_000, ..posted };
    run.account.ledger.items = vec![item];
    run.ok(payment(80, 1_000));
    assert_eq!(run.account.ledger.held, 27_400_000_001);
}

#[test]
fn what_holds_of_shares_and_sums() {
    let bill = Item::posted(Kind::Price, 4_850, 0, 30, Rule::Right);
    let of = |unpaid, share, gathered| shares_hold(&Item { unpaid, share, gathered, ..bill });
    assert!(of(4_850, 4_491, 0) && of(4_849, 4_490, 36_064) && of(100, 0, 4_491 * 36_064));
    assert!(!of(4_850, 4_490, 0) && !of(4_850, 4_492, 0) && !of(100, 1, 0));
    assert!(!of(4_850, 4_491, 1) && !of(4_849, 4_490, 36_065) && !of(1, 0, 4_491 * 36_064 + 1));
    let interest = Item::posted(Kind::Interest, 13, 0, 30, Rule::Right);
    assert!(shares_hold(&interest));
    assert!(!shares_hold(&Item { share: 1, ..interest }));
    assert!(!shares_hold(&Item { unpaid: 1, gathered: 1, ..interest }));
}

// ---- Blunders ----

/// Interest held after calls by a rule.
fn held_by(rule: Rule, calls: &[Call]) -> u64 {
    let mut account = Account::new();
    for call in calls {
        account = reference::calls::take(account, Some(*call), &[], rule).0;
    }
    assert!(account.ledger.items.is_empty());
    account.ledger.held
}

fn in_parts(rule: Rule, parts: &[(u32, u32)]) -> u64 {
    let mut calls = vec![opening(0, 0, 4), reading(29, 20)];
    calls.extend(parts.iter().map(|&(day, yen)| payment(day, yen)));
    held_by(rule, &calls)
}

#[test]
fn blunders_give_other_figures() {
    // Right: 4,491 in time. The tax first: 359 × 100 × 274 = 9.8 million.
    let parts = [(59, 4_491), (159, 359)];
    assert_eq!(in_parts(Rule::Right, &parts), 0);
    assert_eq!(in_parts(Rule::TaxFirst, &parts), 9);
    // In proportion 4,491 × 4,491 / 4,850 = 4,158.6, so 333 late: 9.1.
    assert_eq!(in_parts(Rule::ProRata, &parts), 9);
    // 4,491 × 100 × 274 = 123.1.
    assert_eq!(in_parts(Rule::WholeBody, &parts), 123);
    let three = [(70, 1_300), (71, 1_300), (72, 2_250)];
    assert_eq!(in_parts(Rule::CutEachPart, &three), 13);
    // 1,300 + 2 × 1,300 + 3 × 1,891 = 9,573, × 274 = 2.6.
    assert_eq!(in_parts(Rule::LateFromEleventh, &three), 2);
    // 2,000 × 10 + 2,491 × 11 = 47,401, × 274 = 12.99; 27,401 alone 7.5.
    let at_ten = [(69, 2_000), (70, 2_850)];
    assert_eq!(in_parts(Rule::Right, &at_ten), 7);
    assert_eq!(in_parts(Rule::TenthDayAdds, &at_ten), 12);
}

#[test]
fn credit_that_adds_nothing_gives_another_figure() {
    // 225,623 alone × 274 = 61.8 million.
    let calls = [
        opening(0, 0, 4),
        reading(29, 30),
        missed(59),
        reading(89, 51),
        payment(100, 5_995 + 6_650),
    ];
    let second = interest(6_650, 59, 89, 100, Rule::Right);
    assert_eq!(held_by(Rule::Right, &calls), 67 + second);
    assert_eq!(held_by(Rule::CreditAddsNothing, &calls), 61 + second);
}
