//! Households' files are what they are said to be.

use std::ops::Range;

use reference::account::Account;
use reference::calls::{take, Answer, Call, What};
use reference::fast::{self, LONGEST_ANSWER};
use reference::frames;
use reference::households::{household, METER_MONTHS, MONTHS};
use reference::rule::Rule;

const FILES: u64 = 200;
/// A bill that is left lying is paid with the next one, within two months.
const LONGEST_OPEN: u32 = 60;

/// A line of a file, with the account before and after it.
struct Step {
    call: Option<Call>,
    before: Account,
    after: Account,
    answer: Answer,
}

impl Step {
    fn accepted(&self) -> Option<&Call> {
        self.call.as_ref().filter(|_| self.answer.number == 0)
    }

    fn pays(&self) -> bool {
        self.accepted().is_some_and(|call| matches!(call.what, What::Payment { .. }))
    }

    fn reads(&self) -> bool {
        self.accepted().is_some_and(|call| matches!(call.what, What::Reading { .. }))
    }

    fn misses(&self) -> bool {
        let missed = |call: &Call| matches!(call.what, What::Missed { .. } | What::Absent { .. });
        self.accepted().is_some_and(missed)
    }

    fn changes(&self) -> bool {
        self.accepted().is_some_and(|call| matches!(call.what, What::Change { .. }))
    }

    fn unpaid(&self) -> u64 {
        self.after.ledger.unpaid()
    }

    fn credit(&self) -> u64 {
        self.after.ledger.credit
    }

    /// How many items fewer are open.
    fn settled(&self) -> usize {
        self.before.ledger.items.len().saturating_sub(self.after.ledger.items.len())
    }
}

fn steps(input: &[u8]) -> Vec<Step> {
    let mut account = Account::new();
    let mut steps = Vec::new();
    for line in frames::lines(input) {
        let (call, before) = (frames::parse(line), account.clone());
        let (after, answer) = take(account, call, &[], Rule::Right);
        account = after.clone();
        steps.push(Step { call, before, after, answer });
    }
    steps
}

fn all_files() -> Vec<Vec<Step>> {
    (0..FILES).map(|seed| steps(&household(seed))).collect()
}

fn count(files: &[Vec<Step>], test: impl Fn(&Step) -> bool) -> usize {
    files.iter().flatten().filter(|step| test(step)).count()
}

/// Of a thousand lines that pass the first test, so many also pass the second.
fn within(
    files: &[Vec<Step>],
    first: impl Fn(&Step) -> bool,
    second: impl Fn(&Step) -> bool,
    wanted: Range<usize>,
) {
    let both = count(files, |step| first(step) && second(step));
    let share = 1_000 * both / count(files, first);
    assert!(wanted.contains(&share), "{share}, not {wanted:?}");
}

#[test]
fn a_seed_has_one_file() {
    assert_eq!(household(3), household(3));
    assert_ne!(household(3), household(4));
}

#[test]
fn a_file_has_twenty_years_with_a_closing_a_month() {
    for steps in all_files() {
        let closings = steps.iter().filter(|step| step.reads() || step.misses()).count();
        assert_eq!(closings, MONTHS as usize);
        let days = steps[steps.len() - 1].after.latest - steps[0].after.latest;
        assert!((7_200..7_450).contains(&days), "{days}");
    }
}

#[test]
fn lines_have_their_shares() {
    let files = all_files();
    let of_lines = |test: fn(&Step) -> bool, wanted| within(&files, |_| true, test, wanted);
    of_lines(Step::reads, 450..480);
    of_lines(Step::pays, 480..510);
    of_lines(Step::misses, 18..30);
    of_lines(|step| step.answer.number != 0, 3..8);
    of_lines(|step| step.call.is_none(), 1..4);
}

#[test]
fn a_meter_serves_eight_years() {
    for steps in all_files() {
        let changes = steps.iter().filter(|step| step.changes()).count();
        assert!((MONTHS / METER_MONTHS..=MONTHS / METER_MONTHS + 1).contains(&(changes as u32)));
    }
}

#[test]
fn no_bill_stands_open_for_long() {
    for step in all_files().iter().flatten() {
        let Some(oldest) = step.before.ledger.items.first() else {
            continue;
        };
        let open = step.after.latest - oldest.obligation;
        assert!(open <= LONGEST_OPEN, "{open} days");
    }
}

#[test]
fn payments_fit_the_bills() {
    let files = all_files();
    let of_payments = |test: fn(&Step) -> bool, wanted| within(&files, Step::pays, test, wanted);
    of_payments(|step| step.unpaid() == 0 && step.credit() == 0, 700..850);
    of_payments(|step| step.unpaid() > 0 && step.settled() == 0, 40..100);
    of_payments(|step| step.settled() > 1, 90..150);
    of_payments(|step| step.credit() > 0, 80..130);
}

#[test]
fn interest_revisions_and_credit_occur() {
    let files = all_files();
    assert!(count(&files, |step| step.answer.interest > 0) > 1_000);
    assert!(count(&files, |step| step.answer.finals.len() > 1) > 1_000);
    assert!(count(&files, |step| step.answer.net < 0) > 10);
    assert!(count(&files, |step| step.reads() && step.before.ledger.credit > 0) > 1_000);
}

/// Bills files, whole and cut, into a buffer that is used again.
fn is_equal_in_a_buffer(closed: &[u16], bill_into: impl Fn(&[u8], &mut [u8]) -> usize) {
    let mut room = Vec::new();
    for seed in 0..FILES {
        let input = household(seed);
        for input in [&input[..], &input[..input.len() - 1], &input[..input.len() / 2], &[]] {
            room.resize(LONGEST_ANSWER * (input.len() + 1), 0);
            let size = bill_into(input, &mut room);
            assert!(room[..size] == reference::bill(input, closed, Rule::Right));
        }
    }
}

/// An empty list, every third day of three years and a broken list.
fn lists() -> [Vec<u16>; 3] {
    [vec![], (12_000..13_200).step_by(3).collect(), vec![1, 1]]
}

#[test]
fn the_fast_build_is_equal() {
    is_equal_in_a_buffer(&[], fast::bill_into);
    for list in lists() {
        is_equal_in_a_buffer(&list, |input, room| fast::bill_closed_into(input, &list, room));
    }
}

#[test]
#[cfg(feature = "linked")]
fn the_library_is_equal() {
    use reference::linked;
    is_equal_in_a_buffer(&[], linked::bill_into);
    for list in lists() {
        is_equal_in_a_buffer(&list, |input, room| linked::bill_closed_into(input, &list, room));
    }
}
