//! The volume that an 03 takes: of the nearest earlier period that wasn't an 04
//! period, with figures worked by hand.
//!
//! At k 0 over 30 days: 0 m³ 950, 7 m³ 2,315, 10 m³ 2,900, 11 m³ 3,095, 20 m³
//! 4,850, 25 m³ 5,750, 30 m³ 6,650.

mod common;

use common::*;
use reference::account::Account;
use reference::calls::{take, Call, NOT_WHOLE};
use reference::rule::Rule;

/// Estimated volume and net of an accepted 03 or 04.
fn billed(run: &mut Run, call: Call) -> (u32, i64) {
    let answer = run.ok(call);
    assert!(answer.finals.is_empty());
    (answer.estimated, answer.net)
}

/// Final volumes and net of an accepted real closing.
fn made_final(run: &mut Run, call: Call) -> (Vec<u32>, i64) {
    let answer = run.ok(call);
    assert_eq!(answer.estimated, 0);
    (answer.finals.clone(), answer.net)
}

/// 20 m³ in 30 days.
fn read() -> Run {
    Run::of(&[opening(0, 0, 4), reading(29, 20)])
}

/// An account handed in that keeps such a volume.
fn keeping(volume: u32) -> Account {
    let mut account = Run::of(&[opening(0, 0, 5)]).account;
    account.last_not_absent = volume;
    account
}

// ---- Behind absences ----

#[test]
fn back_from_an_absence() {
    let mut run = read();
    assert_eq!(run.answer.net, 4_850);
    assert_eq!(billed(&mut run, absent(59)), (0, 950));
    assert_eq!(billed(&mut run, missed(89)), (20, 4_850));
    // 45 m³ in all, of which 20 stand estimated.
    assert_eq!(made_final(&mut run, reading(119, 65)), (vec![0, 20, 25], 5_750));
}

#[test]
fn the_absent_period_stays_at_0_when_the_others_share() {
    let mut run = Run::of(&[opening(0, 0, 4), reading(29, 30), absent(59)]);
    assert_eq!(billed(&mut run, missed(89)), (30, 6_650));
    // 2,900 + 3,095 − 6,650.
    assert_eq!(made_final(&mut run, reading(119, 51)), (vec![0, 10, 11], -655));
}

#[test]
fn an_absence_as_the_first_period() {
    let mut run = Run::of(&[opening(0, 0, 4)]);
    assert_eq!(billed(&mut run, absent(29)), (0, 950));
    assert_eq!(billed(&mut run, missed(59)), (0, 950));
    assert_eq!(billed(&mut run, absent(89)), (0, 950));
    assert_eq!(billed(&mut run, missed(119)), (0, 950));
    assert_eq!(made_final(&mut run, reading(149, 25)), (vec![0, 0, 0, 0, 25], 5_750));
    assert_eq!(billed(&mut run, missed(179)), (25, 5_750));
}

#[test]
fn several_absences_in_a_row() {
    for absences in 0..6 {
        let mut run = read();
        for absence in 1..=absences {
            assert_eq!(billed(&mut run, absent(29 + 30 * absence)), (0, 950));
        }
        let day = 59 + 30 * absences;
        assert_eq!(billed(&mut run, missed(day)), (20, 4_850), "behind {absences}");
    }
}

#[test]
fn behind_six_absences_a_miss_waits_for_a_reading() {
    let mut run = read();
    for absence in 1..=6 {
        run.ok(absent(29 + 30 * absence));
    }
    assert_eq!(run.call(missed(239)), 8);
    assert_eq!(made_final(&mut run, reading(239, 30)), (vec![0, 0, 0, 0, 0, 0, 10], 2_900));
    run.ok(absent(269));
    assert_eq!(billed(&mut run, missed(299)), (10, 2_900));
}

#[test]
fn misses_hand_the_volume_on() {
    let mut run = read();
    for call in [missed(59), missed(89)] {
        assert_eq!(billed(&mut run, call), (20, 4_850));
    }
    assert_eq!(billed(&mut run, absent(119)), (0, 950));
    for call in [missed(149), missed(179)] {
        assert_eq!(billed(&mut run, call), (20, 4_850));
    }
    assert_eq!(billed(&mut run, absent(209)), (0, 950));
    assert_eq!(run.account.last_not_absent, 20);
}

#[test]
fn a_period_of_nothing_counts_unless_it_was_an_absence() {
    // Read at 0 m³ with nobody known to be away.
    let mut run = read();
    assert_eq!(made_final(&mut run, reading(59, 20)), (vec![0], 950));
    assert_eq!(billed(&mut run, absent(89)), (0, 950));
    assert_eq!(billed(&mut run, missed(119)), (0, 950));
}

// ---- Behind a stop and a resumption ----

#[test]
fn a_resumption_is_no_new_start() {
    let mut run = Run::of(&[opening(0, 0, 4)]);
    assert_eq!(made_final(&mut run, stop(29, 20)), (vec![20], 4_850));
    run.ok(resumption(60, 500, 4));
    assert_eq!(billed(&mut run, missed(89)), (20, 4_850));
    assert_eq!(billed(&mut run, absent(119)), (0, 950));
    assert_eq!(billed(&mut run, missed(149)), (20, 4_850));
}

#[test]
fn absences_before_and_behind_a_resumption() {
    let mut run = read();
    run.ok(absent(59));
    // The stop's period of 10 m³ is nearer than the reading's of 20.
    assert_eq!(made_final(&mut run, stop(89, 30)), (vec![0, 10], 2_900));
    run.ok(resumption(100, 7, 5));
    assert_eq!(billed(&mut run, absent(129)), (0, 950));
    assert_eq!(billed(&mut run, missed(159)), (10, 2_900));
}

#[test]
fn a_first_period_absent_and_another_behind_a_resumption() {
    let mut run = Run::of(&[opening(0, 0, 4), absent(29)]);
    assert_eq!(made_final(&mut run, stop(59, 0)), (vec![0, 0], 950));
    run.ok(resumption(59, 0, 4));
    assert_eq!(billed(&mut run, absent(89)), (0, 950));
    assert_eq!(billed(&mut run, missed(119)), (0, 950));
}

// ---- Behind a revision ----

#[test]
fn a_reading_that_revises_leaves_its_own_volume() {
    let mut run = Run::of(&[opening(0, 0, 4), reading(29, 30), missed(59)]);
    assert_eq!(made_final(&mut run, reading(89, 51)), (vec![10, 11], -655));
    assert_eq!(billed(&mut run, absent(119)), (0, 950));
    assert_eq!(billed(&mut run, missed(149)), (11, 3_095));
}

#[test]
fn a_stop_that_revises_leaves_its_own_volume() {
    let mut run = read();
    for call in [missed(59), absent(89), missed(119)] {
        run.ok(call);
    }
    // 2,315 × 3 − 4,850 × 2.
    assert_eq!(made_final(&mut run, stop(149, 41)), (vec![7, 0, 7, 7], -2_755));
    run.ok(resumption(180, 0, 4));
    assert_eq!(billed(&mut run, absent(209)), (0, 950));
    assert_eq!(billed(&mut run, missed(239)), (7, 2_315));
}

#[test]
fn a_reading_above_the_estimates_leaves_what_is_over() {
    let mut run = read();
    for call in [absent(59), missed(89)] {
        run.ok(call);
    }
    assert_eq!(made_final(&mut run, reading(119, 51)), (vec![0, 20, 11], 3_095));
    run.ok(absent(149));
    assert_eq!(billed(&mut run, missed(179)), (11, 3_095));
}

// ---- The account ----

#[test]
fn declined_calls_payments_and_changes_leave_the_volume() {
    let mut run = read();
    run.ok(absent(59));
    assert_eq!(run.call(reading(59, 25)), 7);
    assert_eq!(run.call(missed(58)), 3);
    run.ok(payment(60, 4_850));
    run.ok(change(60, 90, 0, 5));
    assert_eq!(run.account.last_not_absent, 20);
    assert_eq!(billed(&mut run, missed(89)), (20, 4_850));
}

#[test]
fn a_new_account_keeps_0() {
    assert_eq!(Account::new().last_not_absent, 0);
    let mut account = Account::new();
    account.last_not_absent = 1;
    assert!(!account.whole());
    assert_eq!(take(account, Some(opening(0, 0, 4)), &[], Rule::Right).1.number, NOT_WHOLE);
}

#[test]
fn number_41_above_99_999() {
    assert!(!keeping(100_000).whole());
    for call in [missed(29), absent(29), reading(29, 0), payment(29, 1)] {
        let (after, answer) = take(keeping(100_000), Some(call), &[], Rule::Right);
        assert_eq!((after, answer.number), (keeping(100_000), NOT_WHOLE));
    }
}

#[test]
fn the_largest_volume_is_taken() {
    // 205,000 + 99,999 × 17,000 sen.
    let account = keeping(99_999);
    assert!(account.whole());
    let (account, absence) = take(account, Some(absent(29)), &[], Rule::Right);
    assert_eq!((absence.number, absence.estimated, absence.net), (0, 0, 950));
    let (account, miss) = take(account, Some(missed(59)), &[], Rule::Right);
    assert_eq!((miss.number, miss.estimated, miss.net), (0, 99_999, 17_001_880));
    assert!(account.whole());
}

// ---- Blunders ----

/// What the last of some calls, an 03, takes by a rule.
fn taken(rule: Rule, calls: &[Call]) -> u32 {
    let (mut account, mut taken) = (Account::new(), 0);
    for call in calls {
        let (after, answer) = take(account, Some(*call), &[], rule);
        assert_eq!(answer.number, 0, "{call:?}");
        (account, taken) = (after, answer.estimated);
    }
    taken
}

#[test]
fn blunders_take_other_volumes() {
    let absence = [opening(0, 0, 4), reading(29, 20), absent(59), missed(89)];
    let absences = [opening(0, 0, 4), reading(29, 20), absent(59), absent(89), missed(119)];
    let resumed =
        [opening(0, 0, 4), reading(29, 5), stop(59, 25), resumption(59, 0, 4), missed(89)];
    let nothing = [opening(0, 0, 4), reading(29, 20), reading(59, 20), missed(89)];
    let revised =
        [opening(0, 0, 4), reading(29, 30), missed(59), reading(89, 51), absent(119), missed(149)];
    for (rule, calls, right, wrong) in [
        (Rule::AbsenceEmpties, &absence[..], 20, 0),
        (Rule::SecondAbsenceEmpties, &absence[..], 20, 20),
        (Rule::SecondAbsenceEmpties, &absences[..], 20, 0),
        (Rule::ResumptionEmpties, &resumed[..], 20, 0),
        (Rule::StopNotCounted, &resumed[..], 20, 5),
        (Rule::ZeroPassedOver, &nothing[..], 0, 20),
        (Rule::ReadingNotCounted, &revised[..], 11, 30),
        (Rule::PoolCounted, &revised[..], 11, 21),
    ] {
        assert_eq!(taken(Rule::Right, calls), right);
        assert_eq!(taken(rule, calls), wrong, "{rule:?}");
    }
}

#[test]
fn an_absence_billed_gives_another_net() {
    let account = read().account;
    let net = |rule| take(account.clone(), Some(absent(59)), &[], rule).1.net;
    assert_eq!(net(Rule::Right), 950);
    assert_eq!(net(Rule::AbsenceBilled), 4_850);
}
