//! One life checked: outputs byte for byte; both sums, wholeness, the volume
//! that an 03 takes and what holds of body shares and gathered sums after every
//! line. Counts what was reached.

use crate::account::{Account, Estimate, Status};
use crate::book::{Before, Book, Closing, Part};
use crate::calendar::{LAST_CALL_DAY, LAST_DAY};
use crate::calls::{self, Answer, Call, What};
use crate::closed::{self, Closed, MOST_CLOSED, TERM};
use crate::frames;
use crate::ledger::{body, interest, Item, Kind, FREE_DAYS, MOST_CREDIT, MOST_ITEMS};
use crate::meter::{self, MOST_POOL};
use crate::notices;
use crate::rule::Rule;
use crate::tariff::{self, Fuel, BASE_AVERAGE};
use crate::tax::RISE;

/// The other side of the comparison.
pub trait Other {
    fn bill(&mut self, input: &[u8], closed: &Closed, out: &mut Vec<u8>);
    fn notice(&mut self, input: &[u8], closed: &Closed, out: &mut Vec<u8>);
}

/// The reference itself as the other side.
pub struct Itself;

impl Other for Itself {
    fn bill(&mut self, input: &[u8], closed: &Closed, out: &mut Vec<u8>) {
        out.extend_from_slice(&crate::bill(input, closed.list(), Rule::Right));
    }

    fn notice(&mut self, input: &[u8], closed: &Closed, out: &mut Vec<u8>) {
        out.extend_from_slice(&crate::notice(input, closed.list(), Rule::Right));
    }
}

/// The numbers that a line can reach.
pub const REACHABLE: [u8; 16] = [0, 1, 2, 3, 4, 5, 6, 7, 8, 9, 10, 11, 12, 13, 14, 40];

/// A call with the closed days, the account before and after it, and the book
/// after it.
struct Step<'a> {
    closed: &'a [u16],
    before: &'a Account,
    call: &'a Call,
    after: &'a Account,
    answer: &'a Answer,
    book: &'a Book,
}

type Edge = fn(&Step) -> bool;

/// The edge that a third of the lives of a full run must reach. A life reaches
/// it once at most.
pub const ACROSS: &str = "lives across day 7,213 with an estimate standing";

/// The edge that a full run must reach so many times.
pub const IN_PARTS: &str = "item settled in three or more parts";
pub const LEAST_IN_PARTS: u64 = 20_000;

/// Another that it must reach so many times.
pub const BEHIND_ABSENCE: &str = "03 just behind an 04";
pub const LEAST_BEHIND_ABSENCE: u64 = 50_000;

/// Lives of a full run.
pub const FULL: u64 = 100_000;

/// Edges that accepted calls reach.
pub const EDGES: [(&str, EdgeTest); 44] = [
    ("72 items open", EdgeTest(|s| s.after.ledger.items.len() == MOST_ITEMS)),
    ("six estimates stand", EdgeTest(|s| s.after.estimates.len() == 6)),
    ("advance of half the span", EdgeTest(|s| turned(s) == Some(meter::span(s.before.digits) / 2))),
    ("dial rolls over", EdgeTest(|s| reached(s.call).is_some_and(|dial| dial < s.before.dial))),
    ("pool of 99,999", EdgeTest(pool_is_full)),
    ("credit of 999,999,999", EdgeTest(|s| s.after.ledger.credit == MOST_CREDIT)),
    ("day 36,094", EdgeTest(|s| s.call.day == LAST_CALL_DAY)),
    ("resumption on the stop day", EdgeTest(resumed_on_stop_day)),
    ("net below zero", EdgeTest(|s| s.answer.net < 0)),
    ("three or more final at once", EdgeTest(|s| s.answer.finals.len() >= 3)),
    ("pool shared", EdgeTest(shared)),
    (
        "pool shared, a 04 among them",
        EdgeTest(|s| shared(s) && s.before.estimates.iter().any(|e| !e.shares)),
    ),
    (
        "interest posted by a closing",
        EdgeTest(|s| s.answer.interest > 0 && !s.answer.finals.is_empty()),
    ),
    (
        "interest posted by a payment",
        EdgeTest(|s| s.answer.interest > 0 && calls::is_payment(s.call)),
    ),
    (
        "interest posted by 0a",
        EdgeTest(|s| s.answer.interest > 0 && s.call.what == What::CancelStopped),
    ),
    ("interest of 08's own settling", EdgeTest(cancelled_with_own_interest)),
    ("credit used by a closing", EdgeTest(|s| s.before.ledger.credit > 0 && s.answer.net > 0)),
    ("due day moved", EdgeTest(|s| posts(s, |item| moved_by(item) > 0))),
    (
        "due day of interest moved",
        EdgeTest(|s| posts(s, |item| item.kind == Kind::Interest && moved_by(item) > 0)),
    ),
    ("due day moved by 400", EdgeTest(|s| posts(s, |item| moved_by(item) == MOST_CLOSED as u32))),
    ("due day 36,524", EdgeTest(|s| posts(s, |item| item.due == LAST_DAY))),
    ("due day kept, the day before closed", EdgeTest(|s| kept_beside(s, TERM - 1))),
    ("due day kept, the day after closed", EdgeTest(|s| kept_beside(s, TERM + 1))),
    (
        "10 days late from a moved day",
        EdgeTest(|s| settles_moved(s, |item| late(s, item.due) == 10)),
    ),
    (
        "11 days late from a moved day",
        EdgeTest(|s| settles_moved(s, |item| late(s, item.due) == 11)),
    ),
    (
        "moved, 10 days late if it weren't",
        EdgeTest(|s| settles_moved(s, |item| late(s, item.obligation + TERM) == 10)),
    ),
    (
        "moved, 11 days late if it weren't",
        EdgeTest(|s| settles_moved(s, |item| late(s, item.obligation + TERM) == 11)),
    ),
    (ACROSS, EdgeTest(crosses_with_an_estimate)),
    ("period closing on 7,212", EdgeTest(|s| closes_on(s, RISE - 1))),
    ("period closing on 7,213", EdgeTest(|s| closes_on(s, RISE))),
    ("estimate of the old rate revised at the new", EdgeTest(|s| revises_old(s, |_| true))),
    (
        "estimate closed on 7,212 revised from 7,213 on",
        EdgeTest(|s| revises_old(s, |e| e.closing == RISE - 1)),
    ),
    ("estimates of both rates revised at once", EdgeTest(revises_both)),
    (
        "old-rate estimate revised, unit above the base",
        EdgeTest(|s| revises_old(s, |e| moved_up(e.fuel))),
    ),
    (
        "old-rate estimate revised, unit below the base",
        EdgeTest(|s| revises_old(s, |e| moved_down(e.fuel))),
    ),
    (
        "interest at 8/108 settled from 7,213 on",
        EdgeTest(|s| s.call.day >= RISE && interest_of(s, |day| day < RISE)),
    ),
    ("interest at 10/110", EdgeTest(|s| interest_of(s, |day| day >= RISE))),
    ("interest, obligation day 7,212", EdgeTest(|s| interest_of(s, |day| day == RISE - 1))),
    ("interest, obligation day 7,213", EdgeTest(|s| interest_of(s, |day| day == RISE))),
    (BEHIND_ABSENCE, EdgeTest(behind_absence)),
    (
        "03 just behind an 04, of a volume above 0",
        EdgeTest(|s| behind_absence(s) && s.answer.estimated > 0),
    ),
    ("03 behind two or more 04", EdgeTest(|s| misses_behind(s, |b| b.absences >= 2))),
    (
        "03 behind 04 only",
        EdgeTest(|s| misses_behind(s, |b| b.absences > 0 && b.nearest.is_none())),
    ),
    (
        "03 behind a resumption",
        EdgeTest(|s| misses_behind(s, |b| b.nearest == Some(Closing::Stop))),
    ),
];

/// A named test of a step.
pub struct EdgeTest(Edge);

/// Edges that parts of price items reach, each part counted.
pub const PART_EDGES: [(&str, PartTest); 16] = [
    (IN_PARTS, PartTest(|_, p| p.settles() && p.bill.parts >= 3)),
    ("part 10 days late", PartTest(|_, p| is_part(p) && p.late == FREE_DAYS)),
    ("part 11 days late", PartTest(|_, p| is_part(p) && p.late == FREE_DAYS + 1)),
    ("part 10 days late from a moved day", PartTest(|_, p| from_moved(p, FREE_DAYS))),
    ("part 11 days late from a moved day", PartTest(|_, p| from_moved(p, FREE_DAYS + 1))),
    ("late part that ends inside the body", PartTest(|_, p| adds(p) && p.to < p.bill.body)),
    ("late part of both body and tax", PartTest(|_, p| adds(p) && p.to > p.bill.body)),
    ("part that ends with the body", PartTest(|_, p| is_part(p) && p.to == p.bill.body)),
    ("part that ends inside the tax", PartTest(|_, p| p.to > p.bill.body && !p.settles())),
    ("late part, body by 8/108", PartTest(|_, p| adds(p) && p.bill.obligation < RISE)),
    ("late part, body by 10/110", PartTest(|_, p| adds(p) && p.bill.obligation >= RISE)),
    ("late part by a credited net", PartTest(|s, p| adds(p) && calls::closes(s.call))),
    ("part by credit on posting", PartTest(by_credit_on_posting)),
    ("interest, the last part all tax", PartTest(|_, p| p.interest() > 0 && p.from >= p.bill.body)),
    (
        "interest of two or more late parts",
        PartTest(|_, p| p.interest() > 0 && p.bill.late_parts >= 2),
    ),
    ("interest other than on the whole body", PartTest(differs_from_whole)),
];

type PartEdge = fn(&Step, &Part) -> bool;

/// A named test of a part.
pub struct PartTest(PartEdge);

fn reached(call: &Call) -> Option<u32> {
    match call.what {
        What::Reading { reading, .. }
        | What::Stop { reading, .. }
        | What::Cancellation { reading, .. } => Some(reading),
        What::Change { old, .. } => Some(old),
        _ => None,
    }
}

fn turned(step: &Step) -> Option<u32> {
    let span = meter::span(step.before.digits);
    reached(step.call).map(|dial| meter::advance(step.before.dial, dial, span))
}

fn pool_is_full(step: &Step) -> bool {
    turned(step).is_some_and(|advance| step.before.pool + advance == MOST_POOL)
}

fn resumed_on_stop_day(step: &Step) -> bool {
    step.before.status == Status::Stopped { day: step.call.day }
        && matches!(step.call.what, What::Resumption { .. })
}

fn shared(step: &Step) -> bool {
    revises(step, |_| true)
}

fn cancelled_with_own_interest(step: &Step) -> bool {
    matches!(step.call.what, What::Cancellation { .. })
        && step.answer.interest > step.before.ledger.held
}

/// Whether the call posts an item that passes the test and stands open.
fn posts(step: &Step, test: impl Fn(&Item) -> bool) -> bool {
    let of_today = |item: &&Item| item.obligation == step.call.day;
    (step.answer.net > 0 || step.answer.interest > 0)
        && step.after.ledger.items.iter().filter(of_today).any(test)
}

/// Days that closed days moved the due day.
fn moved_by(item: &Item) -> u32 {
    item.due - item.obligation - TERM
}

/// Whether an item keeps its due day and the day so long after its obligation
/// day is closed.
fn kept_beside(step: &Step, term: u32) -> bool {
    posts(step, |item| moved_by(item) == 0) && closed::is_listed(step.call.day + term, step.closed)
}

/// Whether the call settles a price item that passes the test. No two price
/// items have the same obligation day.
fn settles(step: &Step, test: impl Fn(&Item) -> bool) -> bool {
    let stands = |item: &Item| {
        let same = |other: &Item| other.kind == item.kind && other.obligation == item.obligation;
        step.after.ledger.items.iter().any(same)
    };
    let price = |item: &&Item| item.kind == Kind::Price;
    let mut candidates = step.before.ledger.items.iter().filter(price);
    candidates.any(|item| test(item) && !stands(item))
}

/// Whether it settles such an item with a moved due day.
fn settles_moved(step: &Step, test: impl Fn(&Item) -> bool) -> bool {
    settles(step, |item| moved_by(item) > 0 && test(item))
}

/// Whether interest arises of an item with such an obligation day.
fn interest_of(step: &Step, test: impl Fn(u32) -> bool) -> bool {
    step.book.parts().iter().any(|part| part.interest() > 0 && test(part.bill.obligation))
}

/// Days from a due day to the call, 0 before it.
fn late(step: &Step, due: u32) -> u32 {
    step.call.day.saturating_sub(due)
}

/// Whether the call is the first from 7,213 on and finds an estimate standing,
/// which then closed before.
fn crosses_with_an_estimate(step: &Step) -> bool {
    step.before.latest < RISE && step.call.day >= RISE && !step.before.estimates.is_empty()
}

fn closes_on(step: &Step, day: u32) -> bool {
    step.call.day == day && calls::closes(step.call)
}

/// Whether the call gives another volume to an estimate that passes the test.
fn revises(step: &Step, test: impl Fn(&Estimate) -> bool) -> bool {
    let mut estimates = step.before.estimates.iter().zip(&step.answer.finals);
    estimates.any(|(estimate, &last)| estimate.volume != last && test(estimate))
}

/// The same of an estimate closed before 7,213, by a call from that day on.
fn revises_old(step: &Step, test: impl Fn(&Estimate) -> bool) -> bool {
    step.call.day >= RISE && revises(step, |e| e.closing < RISE && test(e))
}

fn revises_both(step: &Step) -> bool {
    revises(step, |e| e.closing < RISE) && revises(step, |e| e.closing >= RISE)
}

fn moved_up(fuel: Fuel) -> bool {
    let average = tariff::average(fuel);
    average > BASE_AVERAGE && tariff::steps(average) > 0
}

fn moved_down(fuel: Fuel) -> bool {
    let average = tariff::average(fuel);
    average < BASE_AVERAGE && tariff::steps(average) > 0
}

/// Whether the call is an 03 with such periods before its own.
fn misses_behind(step: &Step, test: impl Fn(&Before) -> bool) -> bool {
    matches!(step.call.what, What::Missed { .. }) && test(&step.book.before_latest())
}

fn behind_absence(step: &Step) -> bool {
    misses_behind(step, |before| before.absences > 0)
}

/// Whether a part isn't the whole item.
fn is_part(part: &Part) -> bool {
    part.from > 0 || !part.settles()
}

/// Whether it is one that adds to its item's sum.
fn adds(part: &Part) -> bool {
    is_part(part) && part.late > FREE_DAYS && part.from < part.bill.body
}

/// Whether it is one so many days late from a moved due day.
fn from_moved(part: &Part, late: u32) -> bool {
    is_part(part) && part.late == late && part.bill.due > part.bill.obligation + TERM
}

/// Whether credit pays a part, not all, of an item as it is posted.
fn by_credit_on_posting(step: &Step, part: &Part) -> bool {
    calls::closes(step.call) && part.bill.obligation == step.call.day && !part.settles()
}

/// Whether an item bears other interest than on its whole body from the due day
/// to the settling day.
fn differs_from_whole(step: &Step, part: &Part) -> bool {
    let bill = &part.bill;
    let whole = interest(bill.amount, bill.obligation, bill.due, step.call.day, Rule::Right);
    part.settles() && part.interest() != whole
}

/// What was reached.
#[derive(Clone)]
pub struct Counts {
    pub lines: u64,
    pub numbers: [u64; 256],
    pub edges: [u64; EDGES.len()],
    pub part_edges: [u64; PART_EDGES.len()],
}

impl Counts {
    pub fn new() -> Counts {
        Counts {
            lines: 0,
            numbers: [0; 256],
            edges: [0; EDGES.len()],
            part_edges: [0; PART_EDGES.len()],
        }
    }

    pub fn add(&mut self, other: &Counts) {
        self.lines += other.lines;
        add_each(&mut self.numbers, &other.numbers);
        add_each(&mut self.edges, &other.edges);
        add_each(&mut self.part_edges, &other.part_edges);
    }

    /// Each edge with how often it was reached.
    pub fn all_edges(&self) -> Vec<(&'static str, u64)> {
        let edges = EDGES.iter().map(|edge| edge.0).zip(self.edges);
        let part_edges = PART_EDGES.iter().map(|edge| edge.0).zip(self.part_edges);
        edges.chain(part_edges).collect()
    }

    /// How often an edge was reached.
    pub fn edge(&self, name: &str) -> u64 {
        let edges = self.all_edges();
        edges.iter().find(|edge| edge.0 == name).expect("a name among the edges").1
    }

    /// Whether too few lives of a full run crossed 7,213 with an estimate
    /// standing: fewer than a third.
    pub fn too_few_cross(&self, lives: u64) -> bool {
        lives >= FULL && 3 * self.edge(ACROSS) < lives
    }

    /// Whether too few items of a full run were settled in three or more parts.
    pub fn too_few_in_parts(&self, lives: u64) -> bool {
        lives >= FULL && self.edge(IN_PARTS) < LEAST_IN_PARTS
    }

    /// Whether too few 03 periods of a full run stood just behind an 04 period.
    pub fn too_few_behind_absence(&self, lives: u64) -> bool {
        lives >= FULL && self.edge(BEHIND_ABSENCE) < LEAST_BEHIND_ABSENCE
    }

    fn count(&mut self, number: u8) {
        self.lines += 1;
        self.numbers[usize::from(number)] += 1;
    }

    fn count_edges(&mut self, step: &Step) {
        for (count, (_, test)) in self.edges.iter_mut().zip(&EDGES) {
            *count += u64::from((test.0)(step));
        }
        for (count, (_, test)) in self.part_edges.iter_mut().zip(&PART_EDGES) {
            let parts = step.book.parts().iter();
            *count += parts.filter(|part| (test.0)(step, part)).count() as u64;
        }
    }
}

fn add_each(sums: &mut [u64], counts: &[u64]) {
    for (sum, count) in sums.iter_mut().zip(counts) {
        *sum += count;
    }
}

impl Default for Counts {
    fn default() -> Counts {
        Counts::new()
    }
}

/// Why a life failed; lines are counted from 1.
#[derive(Clone, Debug, PartialEq, Eq)]
pub enum Failure {
    Bill { line: usize, expected: String, given: String },
    Notice { line: usize, expected: String, given: String },
    Volumes { line: usize },
    Yen { line: usize },
    NotWhole { line: usize },
    LastNotAbsent { line: usize },
    Shares { line: usize },
}

impl Failure {
    /// The last line that the failure needs; none if it needs them all.
    pub fn last_line(&self) -> Option<usize> {
        match self {
            Failure::Notice { .. } => None,
            Failure::Bill { line, .. }
            | Failure::Volumes { line }
            | Failure::Yen { line }
            | Failure::NotWhole { line }
            | Failure::LastNotAbsent { line }
            | Failure::Shares { line } => Some(*line),
        }
    }
}

impl std::fmt::Display for Failure {
    fn fmt(&self, f: &mut std::fmt::Formatter) -> std::fmt::Result {
        match self {
            Failure::Bill { line, expected, given } => {
                write!(f, "bill differs at line {line}\n  expected {expected}\n  given    {given}")
            }
            Failure::Notice { line, expected, given } => {
                write!(
                    f,
                    "notice differs at line {line}\n  expected {expected}\n  given    {given}"
                )
            }
            Failure::Volumes { line } => write!(f, "the sum of volumes breaks at line {line}"),
            Failure::Yen { line } => write!(f, "the sum of yen breaks at line {line}"),
            Failure::NotWhole { line } => write!(f, "the account is not whole after line {line}"),
            Failure::LastNotAbsent { line } => {
                write!(f, "the volume that an 03 takes is wrong after line {line}")
            }
            Failure::Shares { line } => {
                write!(f, "a body share or a gathered sum is wrong after line {line}")
            }
        }
    }
}

/// Buffers kept from life to life.
#[derive(Default)]
pub struct Checker {
    bill: Vec<u8>,
    notice: Vec<u8>,
    other: Vec<u8>,
}

impl Checker {
    /// Checks a life and adds to the counts what it reached. A blunder has to
    /// show in the outputs.
    pub fn check(
        &mut self,
        input: &[u8],
        closed: &Closed,
        other: &mut dyn Other,
        rule: Rule,
        counts: &mut Counts,
    ) -> Result<(), Failure> {
        let sums = self.walk(input, closed.list(), rule, counts);
        self.other.clear();
        other.bill(input, closed, &mut self.other);
        same(&self.bill, &self.other).map_err(|(line, expected, given)| Failure::Bill {
            line,
            expected,
            given,
        })?;
        self.other.clear();
        other.notice(input, closed, &mut self.other);
        same(&self.notice, &self.other).map_err(|(line, expected, given)| Failure::Notice {
            line,
            expected,
            given,
        })?;
        if rule == Rule::Right {
            sums
        } else {
            Ok(())
        }
    }

    /// Walks the reference and the book; writes the reference's outputs.
    fn walk(
        &mut self,
        input: &[u8],
        closed: &[u16],
        rule: Rule,
        counts: &mut Counts,
    ) -> Result<(), Failure> {
        self.bill.clear();
        self.notice.clear();
        let mut account = Account::new();
        let mut sums = Sums::new(closed);
        let mut result = Ok(());
        for (place, line) in frames::lines(input).enumerate() {
            let call = frames::parse(line);
            let before = account.clone();
            let (after, answer) = calls::take(account, call, closed, rule);
            account = after;
            frames::write_answer(&answer, &mut self.bill);
            counts.count(answer.number);
            if let Some(call) = &call {
                sums.feed(call, &answer);
                if answer.number == 0 {
                    let (before, after) = (&before, &account);
                    let (answer, book) = (&answer, &sums.book);
                    counts.count_edges(&Step { closed, before, call, after, answer, book });
                }
            }
            if result.is_ok() {
                result = sums.agree(&account, place + 1);
            }
        }
        notices::write_notices(&account, &mut self.notice);
        result
    }
}

/// The book and the final volumes in all answers.
struct Sums {
    book: Book,
    finals: u64,
}

impl Sums {
    fn new(closed: &[u16]) -> Sums {
        Sums { book: Book::new(closed), finals: 0 }
    }

    fn feed(&mut self, call: &Call, answer: &Answer) {
        self.book.feed(call, answer.number);
        self.finals += answer.finals.iter().map(|&volume| u64::from(volume)).sum::<u64>();
    }

    fn agree(&self, account: &Account, line: usize) -> Result<(), Failure> {
        let ledger = &account.ledger;
        if !account.whole() {
            Err(Failure::NotWhole { line })
        } else if !self.book.volumes_agree(self.finals) {
            Err(Failure::Volumes { line })
        } else if !self.book.yen_agree(ledger.unpaid(), ledger.held, ledger.credit) {
            Err(Failure::Yen { line })
        } else if self.book.last_not_absent() != account.last_not_absent {
            Err(Failure::LastNotAbsent { line })
        } else if !ledger.items.iter().all(shares_hold) {
            Err(Failure::Shares { line })
        } else {
            Ok(())
        }
    }
}

/// Most days from a due day to a call, which is at least 30 days before it.
const MOST_LATE: u64 = (LAST_CALL_DAY - TERM) as u64;

/// What holds of an item after every list of calls: the body share is the body
/// less what is paid, not below 0; the sum is at most what is paid of the body,
/// as late as can be. Interest has neither.
pub fn shares_hold(item: &Item) -> bool {
    let body = match item.kind {
        Kind::Interest => 0,
        Kind::Price => body(item.amount, item.obligation, Rule::Right),
    };
    let paid = item.amount - item.unpaid;
    item.share == body.saturating_sub(paid) && item.gathered <= body.min(paid) * MOST_LATE
}

/// The first line in which two outputs differ, and both versions of it.
fn same(expected: &[u8], given: &[u8]) -> Result<(), (usize, String, String)> {
    if expected == given {
        return Ok(());
    }
    let mut left = expected.split_inclusive(|&byte| byte == b'\n');
    let mut right = given.split_inclusive(|&byte| byte == b'\n');
    let mut line = 0;
    loop {
        line += 1;
        let (one, two) = (left.next(), right.next());
        if one != two {
            return Err((line, shown(one), shown(two)));
        }
    }
}

fn shown(line: Option<&[u8]>) -> String {
    match line {
        Some(bytes) => format!("\"{}\"", bytes.escape_ascii()),
        None => "(nothing)".to_string(),
    }
}
