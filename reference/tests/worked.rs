//! The figures of "Worked by hand".

mod common;

use common::*;
use reference::ledger::interest;
use reference::meter::{advance, share};
use reference::rule::Rule;
use reference::tariff::{adjusted_unit, average, price, steps, Fuel};

/// Of a period from day 0 on.
fn at_base(days: u32, volume: u32) -> u64 {
    price(days - 1, days, BASE, volume, Rule::Right)
}

fn unit(lng: u32) -> u64 {
    adjusted_unit(18_000, Fuel { lng, propane: 75_000 }, 0, Rule::Right)
}

#[test]
fn base_average_has_no_step() {
    assert_eq!(average(BASE), 83_090);
    assert_eq!(steps(average(BASE)), 0);
    assert_eq!(unit(83_130), 18_000);
}

#[test]
fn cheaper_fuel_lowers_the_unit() {
    assert_eq!(unit(83_000), 17_991);
}

#[test]
fn dearer_fuel_raises_the_unit() {
    assert_eq!(unit(85_000), 18_150);
}

#[test]
fn average_is_rounded_half_up_to_ten() {
    // 9.424; 4.431; 5.064.
    assert_eq!(average(Fuel { lng: 10, propane: 0 }), 10);
    assert_eq!(average(Fuel { lng: 0, propane: 70 }), 0);
    assert_eq!(average(Fuel { lng: 0, propane: 80 }), 10);
    assert_eq!(average(Fuel { lng: 300_000, propane: 300_000 }), 301_710);
}

#[test]
fn steps_are_cut_to_a_hundred() {
    assert_eq!(steps(83_180), 0);
    assert_eq!(steps(83_190), 1);
    assert_eq!(steps(83_000), 0);
    assert_eq!(steps(82_990), 1);
}

#[test]
fn prices_over_thirty_days() {
    assert_eq!(at_base(30, 20), 4_850);
    assert_eq!(at_base(30, 21), 5_030);
    assert_eq!(at_base(30, 80), 15_650);
    assert_eq!(at_base(30, 81), 15_820);
}

#[test]
fn prices_of_twenty_over_other_days() {
    assert_eq!(at_base(24, 20), 4_600);
    assert_eq!(at_base(25, 20), 4_850);
    assert_eq!(at_base(35, 20), 4_850);
    assert_eq!(at_base(36, 20), 5_040);
}

#[test]
fn nothing_in_one_day() {
    assert_eq!(at_base(1, 0), 31);
}

#[test]
fn dial_rolls_over() {
    assert_eq!(advance(9_990, 15, 10_000), 25);
    let mut run = Run::of(&[opening(0, 9_990, 4)]);
    assert_eq!(run.ok(reading(29, 15)).finals, [25]);
}

#[test]
fn half_the_span_passes_and_one_more_is_9() {
    assert_eq!(Run::of(&[opening(0, 0, 4)]).call(reading(29, 5_000)), 0);
    assert_eq!(Run::of(&[opening(0, 0, 4)]).call(reading(29, 5_001)), 9);
}

/// Previous volume 30, then so many misses.
fn after_misses(misses: u32) -> Run {
    let mut run = Run::of(&[opening(0, 0, 4), reading(29, 30)]);
    for miss in 1..=misses {
        assert_eq!(run.ok(missed(29 + 30 * miss)).estimated, 30);
    }
    run
}

#[test]
fn one_miss_and_pools_about_it() {
    assert_eq!(after_misses(1).ok(reading(89, 70)).finals, [30, 10]);
    assert_eq!(after_misses(1).ok(reading(89, 60)).finals, [30, 0]);
    let mut run = after_misses(1);
    let answer = run.ok(reading(89, 51));
    assert_eq!(answer.finals, [10, 11]);
    assert_eq!(answer.net, -655);
}

#[test]
fn two_misses_share_fifty() {
    assert_eq!(after_misses(2).ok(reading(119, 80)).finals, [16, 17, 17]);
}

#[test]
fn sharing_for_any_number() {
    for pool in 0..60 {
        for periods in 1..12 {
            let parts = share(pool, periods);
            assert_eq!(parts.iter().sum::<u32>(), pool);
            assert!(parts.windows(2).all(|pair| pair[0] >= pair[1]));
            assert!(parts[0] - parts[periods - 1] <= 1);
        }
    }
}

#[test]
fn interest_from_the_eleventh_late_day_counts_all() {
    let late = |days: u32| interest(4_850, 29, 59, 59 + days, Rule::Right);
    assert_eq!(late(10), 0);
    assert_eq!(late(11), 13);
}

#[test]
fn interest_is_held_and_posted_by_the_next_closing() {
    let mut run = Run::of(&[opening(0, 0, 4), reading(29, 20), payment(70, 4_850)]);
    assert_eq!(run.account.ledger.held, 13);
    assert_eq!(run.answer.interest, 0);
    let answer = run.ok(reading(71, 20));
    assert_eq!(answer.interest, 13);
    assert_eq!(answer.unpaid, 13 + answer.net as u64);
    let mut run = Run::of(&[opening(0, 0, 4), reading(29, 20), payment(69, 4_850)]);
    assert_eq!(run.account.ledger.held, 0);
    assert_eq!(run.ok(reading(71, 20)).interest, 0);
}

#[test]
fn blunders_give_other_figures() {
    let cheap = Fuel { lng: 83_000, propane: 75_000 };
    assert_eq!(adjusted_unit(18_000, cheap, 0, Rule::CutFirst), 17_992);
    assert_ne!(price(23, 24, BASE, 20, Rule::RawBand), 4_600);
    assert_ne!(interest(4_850, 29, 59, 70, Rule::LateFromEleventh), 13);
}
