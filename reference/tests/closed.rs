//! Closed days: the due day, lateness from it, the bounds of a list and the
//! form of its file, with figures worked by hand.

mod common;

use common::*;
use reference::account::Account;
use reference::calendar::LAST_DAY;
use reference::calls::take;
use reference::closed::{allowed, due_day, file_of, list_of, Closed};
use reference::ledger::{interest, Kind};
use reference::rule::Rule;

/// So many days from one on.
fn run_from(first: u16, days: u16) -> Vec<u16> {
    (first..first + days).collect()
}

// ---- The due day ----

#[test]
fn an_empty_list_gives_obligation_day_and_thirty() {
    assert_eq!(due_day(0, &[]), 30);
    assert_eq!(due_day(29, &[]), 59);
    assert_eq!(due_day(36_094, &[]), 36_124);
}

#[test]
fn a_listed_due_day_moves_to_the_next_that_is_not() {
    assert_eq!(due_day(29, &[59]), 60);
    assert_eq!(due_day(29, &[59, 60, 61]), 62);
    assert_eq!(due_day(29, &[59, 61]), 60);
    assert_eq!(due_day(29, &[59, 60, 62, 63]), 61);
}

#[test]
fn a_run_may_begin_before() {
    assert_eq!(due_day(29, &[57, 58, 59, 60]), 61);
    assert_eq!(due_day(29, &run_from(0, 60)), 60);
    assert_eq!(due_day(0, &run_from(0, 31)), 31);
}

#[test]
fn days_beside_the_due_day_do_not_count() {
    assert_eq!(due_day(29, &[60]), 59);
    assert_eq!(due_day(29, &[58]), 59);
    assert_eq!(due_day(29, &[29, 30, 57, 58, 60, 61, 36_524]), 59);
}

#[test]
fn four_hundred_days_in_a_run() {
    assert_eq!(due_day(29, &run_from(59, 400)), 459);
    assert_eq!(due_day(29, &run_from(58, 400)), 458);
    assert_eq!(due_day(29, &run_from(60, 400)), 59);
    assert_eq!(due_day(28, &run_from(59, 400)), 58);
}

#[test]
fn the_last_due_day_is_the_last_day() {
    assert_eq!(due_day(36_094, &run_from(36_124, 400)), LAST_DAY);
    assert_eq!(due_day(36_094, &[36_524]), 36_124);
    let mut list = run_from(36_124, 399);
    list.push(36_524);
    assert_eq!(due_day(36_094, &list), 36_523);
    assert_eq!(due_day(36_094, &run_from(36_125, 400)), 36_124);
    assert_eq!(due_day(36_093, &run_from(36_123, 400)), 36_523);
}

// ---- Items and lateness ----

/// 20 m³ in 30 days, 4,850, due on day 59, which is closed with the two days
/// behind it: due on day 62.
fn posted() -> Run {
    Run::of_closed(&[59, 60, 61], &[opening(0, 0, 4), reading(29, 20)])
}

#[test]
fn a_price_item_has_the_moved_due_day() {
    let item = posted().account.ledger.items[0];
    assert_eq!((item.amount, item.obligation, item.due), (4_850, 29, 62));
}

#[test]
fn lateness_counts_from_the_moved_day() {
    // 4,491 × 11 × 274 = 13.5; from day 59 it would be 14 days, 17.2.
    for (day, held) in [(62, 0), (69, 0), (70, 0), (72, 0), (73, 13)] {
        let mut run = posted();
        run.ok(payment(day, 4_850));
        assert_eq!(run.account.ledger.held, held, "day {day}");
    }
    assert_eq!(interest(4_850, 29, 59, 73, Rule::Right), 17);
}

#[test]
fn interest_items_have_moved_due_days_too() {
    // Paid 11 days late on day 73; closed on day 74: 45 days of 0 m³, 1,425.
    let mut run = Run::of_closed(
        &[59, 60, 61, 104],
        &[opening(0, 0, 4), reading(29, 20), payment(73, 4_850)],
    );
    assert_eq!(run.ok(reading(74, 20)).interest, 13);
    let items = &run.account.ledger.items;
    let days = items.iter().map(|item| (item.kind, item.obligation, item.due));
    let expected = [(Kind::Interest, 74, 105), (Kind::Price, 74, 105)];
    assert!(days.eq(expected));
}

#[test]
fn interest_of_a_cancelled_account_has_a_moved_due_day() {
    let mut run =
        Run::of_closed(&[59, 60, 61, 103, 104], &[opening(0, 0, 4), cancellation(29, 20)]);
    assert_eq!(run.ok(payment(73, 4_850)).interest, 13);
    let item = run.account.ledger.items[0];
    assert_eq!((item.kind, item.obligation, item.due), (Kind::Interest, 73, 105));
    let mut stopped =
        Run::of_closed(&[59, 60, 61, 110], &[opening(0, 0, 4), stop(29, 20), payment(73, 4_850)]);
    assert_eq!(stopped.ok(cancel_stopped(80)).interest, 13);
    let item = stopped.account.ledger.items[0];
    assert_eq!((item.kind, item.obligation, item.due), (Kind::Interest, 80, 111));
}

#[test]
fn an_item_of_the_last_call_day_can_be_due_on_the_last_day() {
    let closed = run_from(36_124, 400);
    let run = Run::of_closed(&closed, &[opening(36_094, 0, 4), reading(36_094, 0)]);
    assert_eq!(run.account.ledger.items[0].due, 36_524);
}

#[test]
fn number_2_at_the_last_call_day() {
    for closed in [vec![], vec![59], run_from(36_124, 400)] {
        let mut run = Run::with_closed(&closed);
        assert_eq!(run.call(opening(36_095, 0, 4)), 2);
        assert_eq!(run.call(opening(36_094, 0, 4)), 0);
        assert_eq!(run.call(reading(36_095, 0)), 2);
        assert_eq!(run.call(payment(36_494, 1)), 2);
        assert_eq!(run.call(reading(36_094, 0)), 0);
    }
}

#[test]
fn blunders_give_other_days() {
    use reference::ledger;
    assert_eq!(ledger::due_day(29, &[59], Rule::Right), 60);
    assert_eq!(ledger::due_day(29, &[59], Rule::ListedKept), 59);
    let late = |rule| {
        let mut account = Account::new();
        for call in [opening(0, 0, 4), reading(29, 20), payment(73, 4_850)] {
            account = take(account, Some(call), &[59, 60, 61], rule).0;
        }
        account.ledger.held
    };
    assert_eq!(late(Rule::Right), 13);
    assert_eq!(late(Rule::UnmovedLate), 17);
}

// ---- Number 14 ----

#[test]
fn lists_within_bounds() {
    let lists: [&[u16]; 7] =
        [&[], &[0], &[36_524], &[0, 36_524], &[7, 8], &run_from(0, 400), &run_from(36_125, 400)];
    for list in lists {
        assert!(allowed(list), "{list:?}");
    }
}

/// A list for each bound, broken at its first, at its last and at any place.
fn broken_lists() -> Vec<Vec<u16>> {
    let mut at_the_end = run_from(100, 400);
    at_the_end[399] = at_the_end[398];
    let mut at_the_start = run_from(100, 400);
    at_the_start[0] = at_the_start[1];
    let mut falls_at_the_end = run_from(100, 400);
    falls_at_the_end.swap(398, 399);
    let mut above = run_from(100, 399);
    above.push(36_525);
    let rising = |entries: u32| (0..entries).map(|place| 7 * place as u16).collect();
    vec![
        vec![5, 5],
        vec![0, 0],
        at_the_end,
        at_the_start,
        vec![6, 5],
        vec![1, 3, 2],
        vec![3, 2, 4],
        falls_at_the_end,
        vec![36_525],
        vec![65_535],
        vec![0, 36_525],
        vec![36_524, 36_525],
        above,
        run_from(0, 401),
        run_from(36_124, 401),
        rising(401),
        rising(5_000),
        vec![5; 401],
    ]
}

#[test]
fn lists_that_break_a_bound() {
    for list in broken_lists() {
        assert!(!allowed(&list), "{list:?}");
    }
}

#[test]
fn number_14_comes_before_all() {
    let mut broken = Account::new();
    broken.pool = 1;
    let sound = Run::of(&[opening(10, 100, 4)]).account;
    for list in broken_lists() {
        for account in [&Account::new(), &broken, &sound] {
            let calls =
                [None, Some(opening(0, 0, 4)), Some(payment(65_535, 0)), Some(reading(40, 120))];
            for call in calls {
                let (after, answer) = take(account.clone(), call, &list, Rule::Right);
                assert_eq!(answer, reference::calls::Answer::declined(14));
                assert_eq!(after, *account);
            }
        }
    }
}

#[test]
fn every_line_gives_14_and_no_notice_is_printed() {
    let input = b"\n0100000000006404\n02001d00000078000144ba000124f8\njunk\n\r\n0a0000";
    let frame = format!("0e{}\n", "0".repeat(58));
    for list in broken_lists() {
        assert_eq!(reference::bill(input, &list, Rule::Right), frame.repeat(6).as_bytes());
        assert_eq!(reference::notice(input, &list, Rule::Right), b"");
        assert_eq!(reference::bill(b"", &list, Rule::Right), b"");
        assert_eq!(reference::bill(b"\n", &list, Rule::Right), frame.as_bytes());
    }
}

// ---- The file ----

#[test]
fn good_files() {
    assert_eq!(list_of(b""), []);
    assert_eq!(list_of(b"003b"), [59]);
    assert_eq!(list_of(b"003b\n"), [59]);
    assert_eq!(list_of(b"003b\n003c"), [59, 60]);
    assert_eq!(list_of(b"003b\n003c\n"), [59, 60]);
    assert_eq!(list_of(b"0000\n8eac\n"), [0, 36_524]);
    let longest = run_from(36_125, 400);
    assert_eq!(list_of(&file_of(&longest)), longest);
}

#[test]
fn files_of_a_list_that_breaks_a_bound() {
    for list in broken_lists() {
        assert_eq!(list_of(&file_of(&list)), list);
    }
    assert!(!allowed(&list_of(b"8ead\n")));
    assert!(!allowed(&list_of(b"ffff\n")));
    assert!(!allowed(&list_of(b"003b\n003b\n")));
    assert!(!allowed(&list_of(b"003c\n003b\n")));
}

#[test]
fn files_of_another_form() {
    let files: [&[u8]; 31] = [
        b"\n",
        b"\n\n",
        b"\n003b",
        b"\n003b\n",
        b"003b\n\n",
        b"003b\n\n003c\n",
        b"0",
        b"003",
        b"03b\n",
        b"0003b\n",
        b"003b0\n",
        b"003b003c\n",
        b"003b\n003\n",
        b"003b\n0",
        b"003B\n",
        b"00AB",
        b"003g\n",
        b"0x3b\n",
        b"+03b\n",
        b"003b\r\n",
        b"003b\r003c\r",
        b"\r\n",
        b"003b\r",
        b" 003b\n",
        b"003b \n",
        b" 03b\n",
        b"03b \n",
        b"\t03b\n",
        b"003\0\n",
        b"\xef\xbb\xbf003b\n",
        b"003\xff\n",
    ];
    for file in files {
        assert!(!allowed(&list_of(file)), "{}", file.escape_ascii());
    }
}

#[test]
fn a_life_has_a_file_and_its_list() {
    assert_eq!((Closed::none().file(), Closed::none().list()), (None, &[][..]));
    let empty = Closed::of(&[]);
    assert_eq!((empty.file(), empty.list()), (Some(&b""[..]), &[][..]));
    let some = Closed::of(&[59, 60]);
    assert_eq!((some.file(), some.list()), (Some(&b"003b\n003c\n"[..]), &[59, 60][..]));
    assert_eq!(Closed::in_file(b"003b\n003c\n".to_vec()), some);
}
