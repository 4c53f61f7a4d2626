//! The comparison itself: lives, other sides, wrong rules and shortening.
#![cfg_attr(feature = "wrong-rule", allow(unused))]

use std::process::{Command, Output};

use reference::benchmarks;
use reference::check::{
    Checker, Counts, Itself, Other, ACROSS, BEHIND_ABSENCE, EDGES, FULL, IN_PARTS,
    LEAST_BEHIND_ABSENCE, LEAST_IN_PARTS, PART_EDGES, REACHABLE,
};
use reference::closed::{allowed, Closed};
use reference::fast::Fast;
use reference::frames;
use reference::generator::{life, Life};
use reference::lists::LISTS;
use reference::process::Programs;
use reference::profiles::PROFILES;
use reference::rule::Rule;
use reference::shrink::{self, Fails};

const LIVES: u64 = 2_000;

fn check_lives(other: &mut dyn Other, seed: u64, lives: u64) -> Counts {
    let mut checker = Checker::default();
    let mut counts = Counts::new();
    for index in 0..lives {
        let life = life(seed, index);
        let checked = checker.check(&life.input, &life.closed, other, Rule::Right, &mut counts);
        assert!(checked.is_ok(), "life {index}: {}", checked.unwrap_err());
    }
    counts
}

#[test]
fn every_number_and_edge_is_reached() {
    let counts = check_lives(&mut Itself, 7, LIVES);
    for number in REACHABLE {
        assert!(counts.numbers[usize::from(number)] >= LIVES / 100, "number {number}");
    }
    assert!(counts.all_edges().iter().all(|edge| edge.1 > 0), "{:?}", counts.all_edges());
    assert!(counts.lines >= 50 * LIVES);
}

#[test]
fn a_third_of_the_lives_cross_the_rise_of_the_tax() {
    let counts = check_lives(&mut Itself, 8, LIVES);
    assert!(3 * counts.edge(ACROSS) >= LIVES, "{}", counts.edge(ACROSS));
}

#[test]
fn a_full_run_in_which_too_few_cross_fails() {
    let mut counts = Counts::new();
    let place = EDGES.iter().position(|edge| edge.0 == ACROSS).unwrap();
    for (lives, crossed, fails) in [
        (FULL, 0, true),
        (FULL, FULL / 3, true),
        (FULL, FULL / 3 + 1, false),
        (FULL - 1, 0, false),
        (2 * FULL, FULL / 2, true),
    ] {
        counts.edges[place] = crossed;
        assert_eq!(counts.too_few_cross(lives), fails, "{crossed} of {lives}");
    }
}

#[test]
fn items_are_settled_in_three_or_more_parts_often_enough() {
    let counts = check_lives(&mut Itself, 9, LIVES);
    assert!(counts.edge(IN_PARTS) * FULL >= LEAST_IN_PARTS * LIVES, "{}", counts.edge(IN_PARTS));
}

#[test]
fn a_full_run_with_too_few_items_in_parts_fails() {
    let mut counts = Counts::new();
    let place = PART_EDGES.iter().position(|edge| edge.0 == IN_PARTS).unwrap();
    for (lives, settled, fails) in [
        (FULL, 0, true),
        (FULL, LEAST_IN_PARTS - 1, true),
        (FULL, LEAST_IN_PARTS, false),
        (FULL - 1, 0, false),
        (2 * FULL, LEAST_IN_PARTS - 1, true),
    ] {
        counts.part_edges[place] = settled;
        assert_eq!(counts.too_few_in_parts(lives), fails, "{settled} of {lives}");
    }
}

#[test]
fn misses_stand_just_behind_absences_often_enough() {
    let counts = check_lives(&mut Itself, 10, LIVES);
    let behind = counts.edge(BEHIND_ABSENCE);
    assert!(behind * FULL >= LEAST_BEHIND_ABSENCE * LIVES, "{behind}");
}

#[test]
fn a_full_run_with_too_few_misses_just_behind_absences_fails() {
    let mut counts = Counts::new();
    let place = EDGES.iter().position(|edge| edge.0 == BEHIND_ABSENCE).unwrap();
    for (lives, behind, fails) in [
        (FULL, 0, true),
        (FULL, LEAST_BEHIND_ABSENCE - 1, true),
        (FULL, LEAST_BEHIND_ABSENCE, false),
        (FULL - 1, 0, false),
        (2 * FULL, LEAST_BEHIND_ABSENCE - 1, true),
    ] {
        counts.edges[place] = behind;
        assert_eq!(counts.too_few_behind_absence(lives), fails, "{behind} of {lives}");
    }
}

#[test]
fn every_profile_is_drawn() {
    let mut drawn = [0; PROFILES.len()];
    for index in 0..LIVES {
        drawn[life(7, index).profile] += 1;
    }
    assert!(drawn.iter().all(|&count| count > 0), "{drawn:?}");
}

#[test]
fn every_kind_of_list_is_drawn_and_a_third_of_the_lives_have_one() {
    let mut drawn = [0; LISTS.len()];
    for index in 0..LIVES {
        let life = life(7, index);
        drawn[life.list] += 1;
        let good = life.list < first_broken();
        assert_eq!(allowed(life.closed.list()), good, "{}", LISTS[life.list].0);
    }
    assert!(drawn.iter().all(|&count| count > 0), "{drawn:?}");
    assert!(drawn[0] <= LIVES * 2 / 3, "{drawn:?}");
}

/// The place of the first kind of list that breaks a bound.
fn first_broken() -> usize {
    LISTS.iter().position(|list| list.0 == "two equal").unwrap()
}

#[test]
fn lives_vary_in_their_last_feed_and_stay_the_same() {
    let ended = |index| life(7, index).input.last() == Some(&b'\n');
    let with_feed = (0..300).filter(|&index| ended(index)).count();
    assert!((150..250).contains(&with_feed));
    assert_eq!(life(3, 5).input, life(3, 5).input);
    assert_ne!(life(3, 5).input, life(4, 5).input);
}

#[test]
fn fast_build_is_equal() {
    check_lives(&mut Fast, 11, LIVES);
}

fn fast(input: &[u8]) -> Vec<u8> {
    fast_closed(input, &[])
}

fn fast_closed(input: &[u8], closed: &[u16]) -> Vec<u8> {
    let mut out = Vec::new();
    Fast.bill(input, &Closed::of(closed), &mut out);
    out
}

#[test]
fn fast_build_is_equal_over_block_ends() {
    let input = benchmarks::long_life(30_000, 5);
    assert_eq!(fast(&input), reference::bill(&input, &[], Rule::Right));
    for cut in [0, 1, 65_535, 65_536, 65_537, 131_072] {
        assert_eq!(fast(&input[..cut]), reference::bill(&input[..cut], &[], Rule::Right));
    }
}

#[test]
fn fast_build_passes_over_lines_longer_than_a_block() {
    for length in [65_535, 65_536, 65_537, 131_072, 200_000] {
        let mut input = b"0100000000006404\n".to_vec();
        input.resize(input.len() + length, b'0');
        assert_eq!(fast(&input), reference::bill(&input, &[], Rule::Right));
        input.extend_from_slice(b"\n02001d00000078000144ba000124f8\n");
        assert_eq!(fast(&input), reference::bill(&input, &[], Rule::Right));
    }
}

#[test]
fn fast_build_declines_all_lines_over_block_ends() {
    let input = benchmarks::long_life(30_000, 5);
    for cut in [0, 1, 16, 17, 65_535, 65_536, 65_537, 131_072, input.len()] {
        let input = &input[..cut];
        assert_eq!(fast_closed(input, &[1, 1]), reference::bill(input, &[1, 1], Rule::Right));
    }
}

#[test]
fn long_life_has_its_lines_and_mostly_passes() {
    let input = benchmarks::long_life(50_000, 2);
    assert_eq!(frames::lines(&input).count(), 50_000);
    let output = reference::bill(&input, &[], Rule::Right);
    let passed = frames::lines(&output).filter(|line| line.starts_with(b"00")).count();
    assert!(passed > 45_000, "{passed}");
}

#[test]
fn small_lives_have_about_twenty_lines() {
    for seed in 0..100 {
        let lines = frames::lines(&benchmarks::small_life(seed)).count();
        assert!((16..=26).contains(&lines), "{lines}");
    }
}

#[test]
#[cfg(not(feature = "wrong-rule"))]
fn programs_as_the_other_side() {
    let bill = env!("CARGO_BIN_EXE_fast_bill").as_ref();
    let mut programs = Programs::new(bill, env!("CARGO_BIN_EXE_ref_notice").as_ref()).unwrap();
    check_lives(&mut programs, 13, 100);
    let large = benchmarks::long_life(40_000, 3);
    for closed in [Closed::none(), Closed::of(&[]), Closed::of(&[59, 60]), Closed::of(&[60, 59])] {
        let mut counts = Counts::new();
        let mut checker = Checker::default();
        checker.check(&large, &closed, &mut programs, Rule::Right, &mut counts).unwrap();
    }
}

/// The shortest of the first failing lives, shortened: its lines and its closed
/// days.
fn shortest(fails: &mut Fails) -> (Vec<u8>, Closed) {
    let lives = (0..500).map(|index| (index, life(1, index)));
    let found = shrink::shortest(lives, 50, 5, fails).expect("a life fails");
    assert!(fails(&found.input, &found.closed));
    (found.input, found.closed)
}

/// Only the outputs count, and a list of closed days only for blunders about it.
#[test]
fn wrong_rules_are_caught_in_a_few_lines() {
    for (name, rule) in Rule::BLUNDERS {
        let about_closed = matches!(rule, Rule::UnmovedLate | Rule::ListedKept);
        let mut checker = Checker::default();
        let (input, closed) = shortest(&mut |input, closed| {
            let checked = checker.check(input, closed, &mut Itself, rule, &mut Counts::new());
            checked.is_err() && (about_closed || closed.file().is_none())
        });
        let lines = frames::lines(&input).count();
        assert!(lines <= 5, "{name}: {lines} lines");
        assert_eq!(closed.file().is_some(), about_closed, "{name}");
        assert!(closed.list().len() <= 1, "{name}: {:?}", closed.list());
        let [right, wrong] = [Rule::Right, rule].map(|rule| {
            let list = closed.list();
            (reference::bill(&input, list, rule), reference::notice(&input, list, rule))
        });
        assert_ne!(right, wrong, "{name}");
    }
}

#[test]
fn the_shortest_of_the_first_failing_lives() {
    let lives = || {
        let inputs = [&b"c\n"[..], b"a\nc\na\na\n", b"a\na\nb\n"];
        let lives = inputs.map(|input| {
            let (input, closed) = (input.to_vec(), Closed::none());
            Life { profile: 0, list: 0, input, closed }
        });
        (0..).zip(lives)
    };
    let mut fails = |input: &[u8], _: &Closed| {
        let count = |byte| input.iter().filter(|&&other| other == byte).count();
        count(b'a') == 3 || count(b'b') == 1
    };
    for (tried, enough, index, lines) in [(1, 1, 1, 3), (2, 3, 1, 3), (2, 2, 2, 1), (9, 0, 2, 1)] {
        let found = shrink::shortest(lives(), tried, enough, &mut fails).unwrap();
        assert_eq!((found.index, found.lines()), (index, lines));
    }
    assert!(shrink::shortest(lives(), 9, 1, &mut |_, _| false).is_none());
}

/// An other side with a fault of its own.
struct Faulty(fn(&[u8], &Closed, &mut Vec<u8>));

impl Other for Faulty {
    fn bill(&mut self, input: &[u8], closed: &Closed, out: &mut Vec<u8>) {
        Itself.bill(input, closed, out);
        (self.0)(input, closed, out);
    }

    fn notice(&mut self, input: &[u8], closed: &Closed, out: &mut Vec<u8>) {
        Itself.notice(input, closed, out);
    }
}

/// The first life that shows a fault, shortened.
fn shortest_of(mut faulty: Faulty) -> (Vec<u8>, Closed) {
    let mut checker = Checker::default();
    shortest(&mut |input, closed| {
        let mut counts = Counts::new();
        checker.check(input, closed, &mut faulty, Rule::Right, &mut counts).is_err()
    })
}

#[test]
fn a_missing_last_line_is_caught_and_kept() {
    let (input, closed) = shortest_of(Faulty(|input, _, out| {
        if input.last() != Some(&b'\n') {
            out.truncate(out.len().saturating_sub(61));
        }
    }));
    assert_eq!(frames::lines(&input).count(), 1);
    assert_ne!(input.last(), Some(&b'\n'));
    assert_eq!(closed, Closed::none());
}

#[test]
fn a_fault_with_any_file_keeps_an_empty_one() {
    let (_, closed) = shortest_of(Faulty(|_, closed, out| {
        if closed.file().is_some() {
            out.clear();
        }
    }));
    assert_eq!(closed, Closed::of(&[]));
}

#[test]
fn a_list_too_long_is_kept_as_long_as_it_fails() {
    let (_, closed) = shortest_of(Faulty(|_, closed, out| {
        if closed.list().len() > 400 {
            out.clear();
        }
    }));
    assert_eq!(closed.list().len(), 401);
}

#[test]
fn a_line_of_another_form_is_kept_alone() {
    let (_, closed) = shortest_of(Faulty(|_, closed, out| {
        if closed.file().is_some_and(|file| file.contains(&b'\r')) {
            out.clear();
        }
    }));
    assert_eq!(frames::lines(closed.file().unwrap()).count(), 1);
}

fn compare(words: &[&str]) -> Output {
    Command::new(env!("CARGO_BIN_EXE_compare")).args(words).output().unwrap()
}

/// Lines of the shortened life in a report.
fn shortened_to(text: &str) -> u32 {
    let rest = text.split("shortened to ").nth(1).expect("a shortened life");
    rest.split(' ').next().unwrap().parse().unwrap()
}

#[test]
#[cfg(not(feature = "wrong-rule"))]
fn compare_passes_on_itself() {
    let output = compare(&["--lives", "300", "--itself", "--jobs", "2"]);
    assert!(output.status.success(), "{}", String::from_utf8_lossy(&output.stdout));
}

#[test]
fn compare_prints_the_shortened_life_of_a_wrong_rule() {
    let output = compare(&["--lives", "300", "--itself", "--wrong-rule", "raw-band"]);
    let text = String::from_utf8(output.stdout).unwrap();
    assert_eq!(output.status.code(), Some(1));
    assert!((1..=5).contains(&shortened_to(&text)), "{text}");
    assert!(text.contains("no file `closed`"), "{text}");
}

#[test]
fn compare_prints_the_shortened_list_of_a_wrong_rule() {
    let output = compare(&["--lives", "300", "--itself", "--wrong-rule", "listed-kept"]);
    let text = String::from_utf8(output.stdout).unwrap();
    assert_eq!(output.status.code(), Some(1));
    assert!((1..=5).contains(&shortened_to(&text)), "{text}");
    assert!(text.contains("file `closed` of 1 lines:"), "{text}");
}

#[test]
#[cfg(feature = "wrong-rule")]
fn compare_catches_the_rule_built_in() {
    let output = compare(&["--lives", "300", "--itself"]);
    let text = String::from_utf8(output.stdout).unwrap();
    assert_eq!(output.status.code(), Some(1));
    assert!((1..=5).contains(&shortened_to(&text)), "{text}");
}

#[test]
#[cfg(not(feature = "wrong-rule"))]
fn compare_fails_when_a_number_is_seldom() {
    let output = compare(&["--lives", "50", "--itself", "--least", "100000"]);
    assert_eq!(output.status.code(), Some(1));
}
