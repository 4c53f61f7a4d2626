//! The tax of ten per cent from day 7,213 on, with figures worked by hand.

mod common;

use common::*;
use reference::calendar::{date_of, Date};
use reference::calls::{Call, What};
use reference::ledger::{interest, Kind};
use reference::rule::Rule;
use reference::tariff::{adjusted_unit, average, price, steps, Fuel};
use reference::tax::{rate, unit_step, within, RISE};

const NONE: Fuel = Fuel { lng: 0, propane: 0 };
const MOST: Fuel = Fuel { lng: 300_000, propane: 300_000 };

// ---- The rate ----

#[test]
fn the_rate_rises_on_1_october_2019() {
    assert_eq!(date_of(RISE), Some(Date { year: 2019, month: 10, day: 1 }));
    let rates = [0, 7_212, 7_213, 36_524].map(|day| rate(day, Rule::Right));
    assert_eq!(rates, [8, 8, 10, 10]);
}

#[test]
fn the_unit_moves_by_8_856_or_9_02_sen() {
    assert_eq!(unit_step(7_212, Rule::Right), 8_856);
    assert_eq!(unit_step(7_213, Rule::Right), 9_020);
}

#[test]
fn the_tax_in_an_amount() {
    // 1,159.26 and 1,422.73; 359.26 and 440.91.
    assert_eq!([7_212, 7_213].map(|day| within(15_650, day, Rule::Right)), [1_159, 1_422]);
    assert_eq!([7_212, 7_213].map(|day| within(4_850, day, Rule::Right)), [359, 440]);
    assert_eq!([7_212, 7_213].map(|day| within(108 * 110, day, Rule::Right)), [880, 1_080]);
}

// ---- Unit and price ----

fn units(fuel: Fuel) -> [u64; 2] {
    let unit = |day| adjusted_unit(18_000, fuel, day, Rule::Right);
    assert_eq!([unit(0), unit(36_094)], [unit(7_212), unit(7_213)]);
    [unit(7_212), unit(7_213)]
}

#[test]
fn averages_and_steps() {
    let of = |fuel| (average(fuel), steps(average(fuel)));
    assert_eq!(of(CHEAP), (82_970, 1));
    assert_eq!(of(DEAR), (84_850, 17));
    assert_eq!(of(NONE), (0, 830));
    assert_eq!(of(MOST), (301_710, 2_186));
}

#[test]
fn units_below_the_base() {
    // 18,000 − 8.856 and − 9.02; 18,000 − 7,350.48 and − 7,486.6.
    assert_eq!(units(CHEAP), [17_991, 17_990]);
    assert_eq!(units(NONE), [10_649, 10_513]);
}

#[test]
fn units_above_the_base() {
    // 18,000 + 150.552 and + 153.34; 18,000 + 19,359.216 and + 19,717.72.
    assert_eq!(units(DEAR), [18_150, 18_153]);
    assert_eq!(units(MOST), [37_359, 37_717]);
}

#[test]
fn units_at_the_base() {
    assert_eq!(units(BASE), [18_000, 18_000]);
}

#[test]
fn a_period_has_the_rate_of_its_closing_day() {
    // 125,000 + 50 × 18,150 sen, or 50 × 18,153.
    for (closing, net) in [(7_212, 10_325), (7_213, 10_326), (7_219, 10_326), (7_242, 10_326)] {
        let mut run = Run::of(&[opening(closing - 29, 0, 4)]);
        assert_eq!(run.ok(reading_at(closing, 50, DEAR)).net, net, "closing on {closing}");
    }
}

#[test]
fn a_long_period_that_spans_the_day() {
    // 45 days of 50 m³, band by 33: 187,500 + 907,650 sen; 187,500 + 907,500.
    assert_eq!(Run::of(&[opening(7_180, 0, 4)]).ok(reading_at(7_224, 50, DEAR)).net, 10_951);
    assert_eq!(Run::of(&[opening(7_168, 0, 4)]).ok(reading_at(7_212, 50, DEAR)).net, 10_950);
}

#[test]
fn every_closing_has_the_rate_of_its_day() {
    // 46 m³ in a day, band by 1,380: 6,833 + 46 × 17,150 sen, or 46 × 17,153.
    let (reading, fuel) = (46, DEAR);
    for (day, net) in [(7_212, 7_957), (7_213, 7_958)] {
        for what in [
            What::Reading { reading, fuel },
            What::Stop { reading, fuel },
            What::Cancellation { reading, fuel },
        ] {
            let mut run = Run::of(&[opening(day, 0, 4)]);
            assert_eq!(run.ok(Call { day, what }).net, net, "{what:?}");
        }
    }
}

// ---- Estimates ----

/// 100 m³ in 30 days, 19,200, and an estimate of them closed on a day.
fn estimated(closing: u32) -> Run {
    let mut run = Run::of(&[opening(closing - 59, 0, 4), reading_at(closing - 30, 100, DEAR)]);
    assert_eq!(run.answer.net, 19_200);
    assert_eq!(run.ok(missed_at(closing, DEAR)).estimated, 100);
    run
}

#[test]
fn an_estimate_has_the_rate_of_its_closing_day() {
    // 205,000 + 100 × 17,150 sen, or 100 × 17,153.
    for (closing, net) in [(7_212, 19_200), (7_213, 19_203)] {
        let run = estimated(closing);
        assert_eq!(run.answer.net, net);
        assert_eq!(run.account.estimates[0].closing, closing);
    }
}

#[test]
fn a_revised_estimate_keeps_the_rate_of_its_closing_day() {
    // This period: 46 m³ at 18,153 sen, 9,600. The estimate: 45 m³ at 18,150
    // sen, 9,417, of 19,200 charged; or at 18,153 sen, 9,418, of 19,203.
    for (closing, net) in [(7_212, -183), (7_213, -185)] {
        let mut run = estimated(closing);
        let answer = run.ok(reading_at(closing + 30, 191, DEAR));
        assert_eq!(answer.finals, [45, 46]);
        assert_eq!(answer.net, net, "closed on {closing}");
    }
}

#[test]
fn an_estimate_of_7_212_revised_on_7_213() {
    // This period: 46 m³ in a day, 7,958.
    let mut run = estimated(7_212);
    let answer = run.ok(reading_at(7_213, 191, DEAR));
    assert_eq!(answer.finals, [45, 46]);
    assert_eq!(answer.net, 7_958 + 9_417 - 19_200);
}

/// Below the base: 130 m³, 24,138, and an estimate of them closed on 7,212;
/// then 122 m³ in all. This period: 61 m³ at 17,990 sen, 12,223; the estimate:
/// 61 m³ at 17,991 sen, 12,224.
fn revised_to_a_bill() -> Run {
    let mut run = Run::of(&[
        opening(7_153, 0, 4),
        reading_at(7_182, 130, CHEAP),
        missed_at(7_212, CHEAP),
        payment(7_212, 2 * 24_138),
    ]);
    assert_eq!((run.answer.unpaid, run.answer.credit), (0, 0));
    let answer = run.ok(reading_at(7_242, 252, CHEAP));
    assert_eq!((answer.finals.as_slice(), answer.net), (&[61, 61][..], 309));
    run
}

#[test]
fn below_the_base_too_an_estimate_keeps_its_rate() {
    revised_to_a_bill();
}

// ---- Interest ----

#[test]
fn the_body_goes_by_the_obligation_day() {
    // 14,491 × 11 × 274 = 43.7 million and 14,228 × 11 × 274 = 42.9.
    assert_eq!(interest(15_650, 7_212, 7_242, 7_253, Rule::Right), 43);
    assert_eq!(interest(15_650, 7_213, 7_243, 7_254, Rule::Right), 42);
    // 4,491 × 14 × 274 = 17.2 million and 4,410 × 14 × 274 = 16.9.
    assert_eq!(interest(4_850, 7_212, 7_242, 7_256, Rule::Right), 17);
    assert_eq!(interest(4_850, 7_213, 7_243, 7_257, Rule::Right), 16);
}

#[test]
fn ten_days_late_bear_nothing_at_either_rate() {
    assert_eq!(interest(15_650, 7_212, 7_242, 7_252, Rule::Right), 0);
    assert_eq!(interest(15_650, 7_213, 7_243, 7_253, Rule::Right), 0);
}

#[test]
fn items_of_both_days_settled_late() {
    for (obligation, held) in [(7_212, 43), (7_213, 42)] {
        let mut run = Run::of(&[opening(obligation - 29, 0, 4), reading(obligation, 80)]);
        assert_eq!(run.answer.net, 15_650);
        run.ok(payment(obligation + 41, 15_650));
        assert_eq!(run.account.ledger.held, held, "obligation day {obligation}");
    }
}

#[test]
fn a_moved_due_day_leaves_the_body() {
    // Day 7,242 is closed: due on 7,243, and 11 days late on 7,254.
    let mut run = Run::of_closed(&[7_242], &[opening(7_183, 0, 4), reading(7_212, 80)]);
    run.ok(payment(7_254, 15_650));
    assert_eq!(run.account.ledger.held, 43);
}

#[test]
fn a_net_that_revises_the_old_rate_has_the_body_of_its_own_day() {
    // Due on 7,272, 400 days late: 281 × 400 × 274 = 30.8 million; with the
    // body by 8/108, 287, 31.5.
    let mut run = revised_to_a_bill();
    let item = run.account.ledger.items[0];
    assert_eq!((item.kind, item.amount, item.obligation), (Kind::Price, 309, 7_242));
    run.ok(payment(7_672, 309));
    assert_eq!(run.account.ledger.held, 30);
}

// ---- Blunders ----

#[test]
fn blunders_give_other_figures() {
    let unit = |rule| adjusted_unit(18_000, CHEAP, 7_213, rule);
    assert_eq!(unit(Rule::Right), 17_990);
    assert_eq!(unit(Rule::CutFirst), 17_991);
    assert_eq!(unit(Rule::CutFirstAtTen), 17_991);
    assert_eq!(adjusted_unit(18_000, CHEAP, 7_212, Rule::CutFirstAtTen), 17_991);
    assert_eq!(unit(Rule::RateLate), 17_991);
    assert_eq!(adjusted_unit(18_000, CHEAP, 7_212, Rule::RateEarly), 17_990);
    assert_eq!(price(7_219, 30, DEAR, 50, Rule::FirstDayRate), 10_325);
    assert_eq!(interest(15_650, 7_212, 7_242, 7_253, Rule::SettlingBody), 42);
    assert_eq!(interest(15_650, 7_212, 7_242, 7_253, Rule::DueBody), 42);
}
