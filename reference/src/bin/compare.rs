//! Compares another build with the reference over generated lives.

use std::collections::HashMap;
use std::fs;
use std::process::ExitCode;
use std::sync::atomic::{AtomicU64, Ordering};
use std::sync::Mutex;
use std::thread;
use std::time::Instant;

use reference::check::{
    Checker, Counts, Failure, Itself, Other, ACROSS, BEHIND_ABSENCE, FULL, IN_PARTS,
    LEAST_BEHIND_ABSENCE, LEAST_IN_PARTS, REACHABLE,
};
use reference::closed::Closed;
use reference::fast::Fast;
use reference::frames;
use reference::generator::{self, Life};
use reference::lists::LISTS;
use reference::process::Programs;
use reference::profiles::PROFILES;
use reference::rule::Rule;
use reference::shrink::{self, Shortened};

const USAGE: &str = "usage: compare [--lives N] [--seed S] [--jobs J] [--table FILE] [--least M]
               [--wrong-rule [NAME]] (--bill PATH --notice PATH | --linked | --fast | --itself)
  --lives N          lives to compare (100000)
  --seed S           seed of the lives (1)
  --jobs J           threads (1)
  --table FILE       writes what was reached, tab-separated
  --least M          fails if a number was reached fewer times (lives / 100)
  --wrong-rule NAME  gives the reference a blunder: raw-band (if not named),
                     cut-first, meter-closes, late-from-eleventh, todays-fuel,
                     unmoved-late, listed-kept, cut-first-at-ten, rate-late,
                     rate-early, first-day-rate, todays-rate, settling-body,
                     due-body, tax-first, pro-rata, cut-each-part,
                     tenth-day-adds, whole-body, credit-adds-nothing,
                     absence-empties, second-absence-empties, absence-billed,
                     resumption-empties, stop-not-counted, reading-not-counted,
                     zero-passed-over or pool-counted
  the other side: two programs, the linked library, the fast build of the
  reference, or the reference itself
  A run of 100,000 lives or more also fails if fewer than a third of them are
  across day 7,213 with an estimate standing, if fewer than 20,000 items are
  settled in three or more parts, or if fewer than 50,000 accepted 03 stand just
  behind an 04.";

#[derive(Clone)]
enum Side {
    Programs { bill: String, notice: String },
    Linked,
    Fast,
    Itself,
}

impl Side {
    fn other(&self) -> Box<dyn Other> {
        match self {
            Side::Programs { bill, notice } => {
                let programs = Programs::new(bill.as_ref(), notice.as_ref());
                Box::new(programs.unwrap_or_else(|error| panic!("{bill}, {notice}: {error}")))
            }
            Side::Linked => linked(),
            Side::Fast => Box::new(Fast),
            Side::Itself => Box::new(Itself),
        }
    }
}

#[cfg(feature = "linked")]
fn linked() -> Box<dyn Other> {
    Box::new(reference::linked::Linked)
}

#[cfg(not(feature = "linked"))]
fn linked() -> Box<dyn Other> {
    panic!("built without the feature `linked`")
}

struct Options {
    lives: u64,
    seed: u64,
    jobs: u64,
    least: u64,
    table: Option<String>,
    rule: Rule,
    side: Side,
}

// ---- Options ----

fn options() -> Result<Options, String> {
    let given = given_options()?;
    let number = |name: &str, usual: u64| match given.get(name) {
        Some(text) => text.parse().map_err(|_| format!("{name} needs a number")),
        None => Ok(usual),
    };
    let lives = number("--lives", FULL)?;
    Ok(Options {
        lives,
        seed: number("--seed", 1)?,
        jobs: number("--jobs", 1)?.max(1),
        least: number("--least", lives / 100)?,
        table: given.get("--table").cloned(),
        rule: rule(&given)?,
        side: side(&given)?,
    })
}

fn given_options() -> Result<HashMap<String, String>, String> {
    let mut given = HashMap::new();
    let mut words = std::env::args().skip(1).peekable();
    while let Some(word) = words.next() {
        let value = match word.as_str() {
            "--linked" | "--fast" | "--itself" => String::new(),
            "--wrong-rule" => {
                words.next_if(|next| !next.starts_with("--")).unwrap_or("raw-band".to_string())
            }
            "--lives" | "--seed" | "--jobs" | "--table" | "--least" | "--bill" | "--notice" => {
                words.next().ok_or(format!("{word} needs a value"))?
            }
            _ => return Err(format!("unknown option {word}")),
        };
        given.insert(word, value);
    }
    Ok(given)
}

fn rule(given: &HashMap<String, String>) -> Result<Rule, String> {
    match given.get("--wrong-rule") {
        Some(name) => Rule::named(name).ok_or(format!("unknown rule {name}")),
        None => Ok(Rule::built()),
    }
}

fn side(given: &HashMap<String, String>) -> Result<Side, String> {
    match (given.get("--bill"), given.get("--notice")) {
        (Some(bill), Some(notice)) => {
            Ok(Side::Programs { bill: bill.clone(), notice: notice.clone() })
        }
        (None, None) if given.contains_key("--linked") => Ok(Side::Linked),
        (None, None) if given.contains_key("--fast") => Ok(Side::Fast),
        (None, None) if given.contains_key("--itself") => Ok(Side::Itself),
        _ => Err("name the other side".to_string()),
    }
}

// ---- The run ----

/// What all lives together reached.
struct Total {
    counts: Counts,
    lives: u64,
    profiles: [u64; PROFILES.len()],
    lists: [u64; LISTS.len()],
}

impl Total {
    fn new() -> Total {
        Total {
            counts: Counts::new(),
            lives: 0,
            profiles: [0; PROFILES.len()],
            lists: [0; LISTS.len()],
        }
    }

    fn count(&mut self, life: &Life) {
        self.lives += 1;
        self.profiles[life.profile] += 1;
        self.lists[life.list] += 1;
    }

    fn add(&mut self, other: &Total) {
        self.counts.add(&other.counts);
        self.lives += other.lives;
        for (sum, count) in self.profiles.iter_mut().zip(&other.profiles) {
            *sum += count;
        }
        for (sum, count) in self.lists.iter_mut().zip(&other.lists) {
            *sum += count;
        }
    }
}

/// The failing life with the least number so far.
struct Found {
    index: AtomicU64,
    failure: Mutex<Option<(u64, Failure)>>,
}

impl Found {
    fn none() -> Found {
        Found { index: AtomicU64::new(u64::MAX), failure: Mutex::new(None) }
    }

    fn note(&self, index: u64, failure: Failure) {
        let mut kept = self.failure.lock().expect("no thread fails while noting");
        if kept.as_ref().is_none_or(|(other, _)| index < *other) {
            *kept = Some((index, failure));
            self.index.store(index, Ordering::SeqCst);
        }
    }
}

fn run(options: &Options) -> (Total, Option<(u64, Failure)>) {
    let next = AtomicU64::new(0);
    let found = Found::none();
    let total = Mutex::new(Total::new());
    thread::scope(|scope| {
        for _ in 0..options.jobs {
            scope.spawn(|| {
                let part = work(options, &next, &found);
                total.lock().expect("no thread fails while adding").add(&part);
            });
        }
    });
    let failure = found.failure.into_inner().expect("all threads have ended");
    (total.into_inner().expect("all threads have ended"), failure)
}

/// Takes lives in order until all are done or an earlier one has failed.
fn work(options: &Options, next: &AtomicU64, found: &Found) -> Total {
    let mut other = options.side.other();
    let mut checker = Checker::default();
    let mut total = Total::new();
    loop {
        let index = next.fetch_add(1, Ordering::SeqCst);
        if index >= options.lives || index > found.index.load(Ordering::SeqCst) {
            return total;
        }
        let life = generator::life(options.seed, index);
        total.count(&life);
        let (input, closed) = (&life.input, &life.closed);
        let checked = checker.check(input, closed, &mut *other, options.rule, &mut total.counts);
        if let Err(failure) = checked {
            found.note(index, failure);
        }
    }
}

// ---- Reports ----

fn rows(total: &Total) -> Vec<(&'static str, String, u64)> {
    let mut rows = vec![
        ("total", "lives".to_string(), total.lives),
        ("total", "lines".to_string(), total.counts.lines),
    ];
    for number in REACHABLE {
        rows.push(("number", number.to_string(), total.counts.numbers[usize::from(number)]));
    }
    for (profile, count) in PROFILES.iter().zip(total.profiles) {
        rows.push(("profile", profile.0.to_string(), count));
    }
    for (list, count) in LISTS.iter().zip(total.lists) {
        rows.push(("list", list.0.to_string(), count));
    }
    for (edge, count) in total.counts.all_edges() {
        rows.push(("edge", edge.to_string(), count));
    }
    rows
}

fn print_table(rows: &[(&str, String, u64)]) {
    for (kind, name, count) in rows {
        println!("{kind:<8} {name:<50} {count:>10}");
    }
}

fn write_table(file: &str, rows: &[(&str, String, u64)]) -> std::io::Result<()> {
    let text: String =
        rows.iter().map(|(kind, name, count)| format!("{kind}\t{name}\t{count}\n")).collect();
    fs::write(file, format!("kind\tname\tcount\n{text}"))
}

/// Lines of a life that shows a blunder, and failing lives that are shortened
/// in search of one.
const FEW_LINES: usize = 5;
const TRIED: usize = 50;

/// Prints the fewest lines and closed days that still fail: of the first
/// failing life, or with a blunder of one of the first.
fn report_failure(options: &Options, index: u64, failure: &Failure) {
    let mut other = options.side.other();
    let mut checker = Checker::default();
    let mut check = |input: &[u8], closed: &Closed| {
        checker.check(input, closed, &mut *other, options.rule, &mut Counts::new())
    };
    let mut fails = |input: &[u8], closed: &Closed| check(input, closed).is_err();
    let lives = (index..options.lives).map(|index| (index, generator::life(options.seed, index)));
    let tried = if options.rule == Rule::Right { 1 } else { TRIED };
    let found = shrink::shortest(lives, tried, FEW_LINES, &mut fails);
    let Some(Shortened { index, life, input, closed }) = &found else {
        println!("life {index} of seed {} failed, and passes now\n{failure}", options.seed);
        return;
    };
    let (profile, list) = (PROFILES[life.profile].0, LISTS[life.list].0);
    println!("life {index} of seed {} ({profile}; closed days: {list}) fails", options.seed);
    print_failure(check(&life.input, &life.closed));
    println!("shortened to {} lines:", frames::lines(input).count());
    print_lines(input);
    match closed.file() {
        Some(file) => {
            println!("file `closed` of {} lines:", frames::lines(file).count());
            print_lines(file);
        }
        None => println!("no file `closed`"),
    }
    print_failure(check(input, closed));
}

fn print_failure(checked: Result<(), Failure>) {
    if let Err(failure) = checked {
        println!("{failure}");
    }
}

fn print_lines(text: &[u8]) {
    for line in text.split_inclusive(|&byte| byte == b'\n') {
        println!("  {}", line.escape_ascii());
    }
}

/// The numbers reached fewer times than asked.
fn seldom(total: &Total, least: u64) -> Vec<u8> {
    let count = |number: &u8| total.counts.numbers[usize::from(*number)];
    REACHABLE.into_iter().filter(|number| count(number) < least).collect()
}

fn compare(options: &Options) -> Result<bool, std::io::Error> {
    let start = Instant::now();
    let (total, failure) = run(options);
    if let Some((index, failure)) = failure {
        report_failure(options, index, &failure);
        return Ok(false);
    }
    let rows = rows(&total);
    print_table(&rows);
    println!("{:.1} seconds", start.elapsed().as_secs_f64());
    if let Some(file) = &options.table {
        write_table(file, &rows)?;
    }
    let seldom = seldom(&total, options.least);
    if !seldom.is_empty() {
        println!("reached fewer than {} times: {seldom:?}", options.least);
    }
    let too_few_cross = total.counts.too_few_cross(total.lives);
    if too_few_cross {
        println!("fewer than a third: {ACROSS}");
    }
    let too_few_in_parts = total.counts.too_few_in_parts(total.lives);
    if too_few_in_parts {
        println!("fewer than {LEAST_IN_PARTS}: {IN_PARTS}");
    }
    let too_few_behind_absence = total.counts.too_few_behind_absence(total.lives);
    if too_few_behind_absence {
        println!("fewer than {LEAST_BEHIND_ABSENCE}: {BEHIND_ABSENCE}");
    }
    let too_few = too_few_cross || too_few_in_parts || too_few_behind_absence;
    Ok(seldom.is_empty() && !too_few)
}

fn main() -> ExitCode {
    let options = match options() {
        Ok(options) => options,
        Err(problem) => {
            eprintln!("{problem}\n{USAGE}");
            return ExitCode::from(2);
        }
    };
    match compare(&options) {
        Ok(true) => ExitCode::SUCCESS,
        Ok(false) => ExitCode::FAILURE,
        Err(error) => {
            eprintln!("{error}");
            ExitCode::from(2)
        }
    }
}
