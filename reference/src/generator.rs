//! Seeded lives of accounts as lists of lines. A model account, the
//! reference's own, lets a profile aim at a limit. A part of the lives is moved
//! to the days about the rise of the tax.

use crate::account::{Account, Status};
use crate::calendar::LAST_CALL_DAY;
use crate::calls::{self, Call, What};
use crate::closed::{self, Closed};
use crate::frames;
use crate::ledger::MOST_PAYMENT;
use crate::lists;
use crate::meter;
use crate::profiles::{OWN_DAYS, PROFILES};
use crate::rule::Rule;
use crate::tariff::{Fuel, MOST_FUEL_PRICE};
use crate::tax::RISE;

// ---- Numbers ----

/// SplitMix64: the same numbers on every machine.
pub struct Numbers(u64);

impl Numbers {
    pub fn new(seed: u64) -> Numbers {
        Numbers(seed)
    }

    pub fn draw(&mut self) -> u64 {
        self.0 = self.0.wrapping_add(0x9e37_79b9_7f4a_7c15);
        let mut z = self.0;
        z = (z ^ (z >> 30)).wrapping_mul(0xbf58_476d_1ce4_e5b9);
        z = (z ^ (z >> 27)).wrapping_mul(0x94d0_49bb_1331_11eb);
        z ^ (z >> 31)
    }

    /// 0 to bound − 1; the bound is at least 1.
    pub fn below(&mut self, bound: u32) -> u32 {
        ((u128::from(self.draw()) * u128::from(bound)) >> 64) as u32
    }

    /// Low to high, both included.
    pub fn between(&mut self, low: u32, high: u32) -> u32 {
        low + self.below(high - low + 1)
    }

    pub fn chance(&mut self, percent: u32) -> bool {
        self.below(100) < percent
    }

    pub fn pick<T: Copy>(&mut self, choices: &[T]) -> T {
        choices[self.below(choices.len() as u32) as usize]
    }
}

/// Mixes a seed with the number of a life.
pub fn seed_of(seed: u64, index: u64) -> u64 {
    let mut numbers = Numbers::new(seed ^ index.wrapping_mul(0xd134_2543_de82_ef95));
    numbers.draw()
}

/// One life: the places of its profile and of its kind of list, its input and
/// its closed days.
pub struct Life {
    pub profile: usize,
    pub list: usize,
    pub input: Vec<u8>,
    pub closed: Closed,
}

/// The life with a number, always the same for a seed.
pub fn life(seed: u64, index: u64) -> Life {
    let seed = seed_of(seed, index);
    let (profile, drawn) = made(seed, None, &[]);
    let first = moved_first_day(seed, profile, &drawn);
    let moved = first.map(|_| made(seed, first, &[]).1);
    let plain = moved.unwrap_or(drawn).finish();
    let (list, closed) = lists::list(seed, PROFILES[profile].0, &plain);
    // The days of the life without a list tell which days to close. A profile
    // then aims with the list; a broken one leaves the lines as they were.
    let aims = !closed.list().is_empty() && closed::allowed(closed.list());
    let input = if aims { made(seed, first, closed.list()).1.finish() } else { plain };
    Life { profile, list, input, closed }
}

/// A profile's place and the maker with its lines; it begins on a first day if
/// one is given.
fn made(seed: u64, first: Option<u32>, closed: &[u16]) -> (usize, Maker) {
    let mut maker = Maker { first, ..Maker::with_closed(seed, closed) };
    let profile = pick(&mut maker.numbers, &PROFILES.map(|profile| profile.1));
    (PROFILES[profile].2)(&mut maker);
    (profile, maker)
}

/// Of a hundred lives, so many are moved to the rise of the tax.
const MOVED: u32 = 53;

/// The first day that brings the rise of the tax between two calls of a life,
/// with an estimate standing if one ever stood; none if the life stays.
fn moved_first_day(seed: u64, profile: usize, drawn: &Maker) -> Option<u32> {
    let mut numbers = Numbers::new(seed.rotate_left(32));
    if OWN_DAYS.contains(&PROFILES[profile].0) || !numbers.chance(MOVED) {
        return None;
    }
    let stood = drawn.gaps.iter().any(|gap| gap.estimated);
    let gaps: Vec<Gap> = drawn.gaps.iter().copied().filter(|g| g.estimated == stood).collect();
    if gaps.is_empty() {
        return None;
    }
    let Gap { from, to, .. } = numbers.pick(&gaps);
    let rise = match numbers.below(3) {
        0 => from + 1,
        1 => to,
        _ => numbers.between(from + 1, to),
    };
    (drawn.opening + RISE).checked_sub(rise)
}

/// A place, each as often as its weight tells.
pub fn pick(numbers: &mut Numbers, weights: &[u32]) -> usize {
    let mut left = numbers.below(weights.iter().sum());
    let mut place = 0;
    while left >= weights[place] {
        left -= weights[place];
        place += 1;
    }
    place
}

// ---- The maker of one life ----

/// Days from one accepted call, or from the closing of an estimate that still
/// stands, to the next call.
#[derive(Clone, Copy)]
struct Gap {
    from: u32,
    to: u32,
    estimated: bool,
}

impl Gap {
    /// The gap that the next accepted call ends; none before an opening.
    fn of(account: &Account) -> Option<Gap> {
        if account.status == Status::New {
            return None;
        }
        let estimate = account.estimates.last();
        let from = estimate.map_or(account.latest, |estimate| estimate.closing);
        Some(Gap { from, to: from, estimated: estimate.is_some() })
    }

    /// None if it has no days.
    fn up_to(self, to: u32) -> Option<Gap> {
        (self.from < to).then_some(Gap { to, ..self })
    }
}

/// Makes the lines of one life.
pub struct Maker {
    pub numbers: Numbers,
    pub account: Account,
    /// Lines so far.
    pub lines: usize,
    input: Vec<u8>,
    closed: Vec<u16>,
    /// The first day of a life that is moved.
    first: Option<u32>,
    /// The opening day that was drawn, 0 if none was.
    opening: u32,
    gaps: Vec<Gap>,
}

impl Maker {
    pub fn new(seed: u64) -> Maker {
        Maker::with_closed(seed, &[])
    }

    /// A maker whose account is called with closed days.
    pub fn with_closed(seed: u64, closed: &[u16]) -> Maker {
        Maker {
            numbers: Numbers::new(seed),
            account: Account::new(),
            lines: 0,
            input: Vec::new(),
            closed: closed.to_vec(),
            first: None,
            opening: 0,
            gaps: Vec::new(),
        }
    }

    /// The input, each line with its LF.
    pub fn into_input(self) -> Vec<u8> {
        self.input
    }

    /// The input; one in three lacks its last LF.
    pub fn finish(mut self) -> Vec<u8> {
        if self.numbers.below(3) == 0 {
            self.input.pop();
        }
        self.input
    }

    /// Adds a line; gives the number that answers it.
    pub fn line(&mut self, line: &[u8]) -> u8 {
        self.input.extend_from_slice(line);
        self.input.push(b'\n');
        self.lines += 1;
        let account = std::mem::take(&mut self.account);
        let gap = Gap::of(&account);
        let (account, answer) =
            calls::take(account, frames::parse(line), &self.closed, Rule::Right);
        if answer.number == 0 {
            self.gaps.extend(gap.and_then(|gap| gap.up_to(account.latest)));
        }
        self.account = account;
        answer.number
    }

    pub fn send(&mut self, day: u32, what: What) -> u8 {
        let day = day.min(u32::from(u16::MAX));
        let line = frames::line_of(&Call { day, what });
        self.line(&line)
    }

    // Where the account stands.

    pub fn now(&self) -> u32 {
        self.account.latest.max(self.first.unwrap_or(0))
    }

    pub fn after(&mut self, low: u32, high: u32) -> u32 {
        (self.now() + self.numbers.between(low, high)).min(LAST_CALL_DAY)
    }

    /// The day before the open period's first day.
    pub fn now_closed(&self) -> u32 {
        match self.account.status {
            Status::Supplied { start } => start.saturating_sub(1),
            _ => self.now(),
        }
    }

    pub fn stopped(&self) -> bool {
        matches!(self.account.status, Status::Stopped { .. })
    }

    pub fn span(&self) -> u32 {
        meter::span(self.account.digits)
    }

    pub fn open_items(&self) -> usize {
        self.account.ledger.items.len()
    }

    pub fn unpaid(&self) -> u32 {
        self.account.ledger.unpaid().min(u64::from(MOST_PAYMENT)) as u32
    }

    pub fn oldest_unpaid(&self) -> u32 {
        let oldest = self.account.ledger.items.first();
        oldest.map_or(1, |item| item.unpaid.min(u64::from(MOST_PAYMENT)) as u32)
    }

    // Fields.

    pub fn fuel_price(&mut self, low: u32, high: u32) -> u32 {
        self.numbers.between(low / 10, high / 10) * 10
    }

    pub fn fuel(&mut self) -> Fuel {
        match self.numbers.below(12) {
            0 => Fuel { lng: 83_130, propane: 75_000 },
            1 => Fuel {
                lng: self.fuel_price(0, MOST_FUEL_PRICE),
                propane: self.fuel_price(0, MOST_FUEL_PRICE),
            },
            2 => Fuel {
                lng: self.numbers.pick(&[0, 10, MOST_FUEL_PRICE]),
                propane: self.numbers.pick(&[0, 10, MOST_FUEL_PRICE]),
            },
            3 => Fuel { lng: self.fuel_price(82_900, 83_400), propane: 75_000 },
            _ => Fuel {
                lng: self.fuel_price(60_000, 110_000),
                propane: self.fuel_price(40_000, 100_000),
            },
        }
    }

    pub fn digits(&mut self) -> u32 {
        self.numbers.pick(&[4, 4, 5])
    }

    /// Volumes of a usual month, near the band limits at times.
    pub fn volume(&mut self) -> u32 {
        match self.numbers.below(10) {
            0 => 0,
            1 => self.numbers.between(19, 22),
            2 => self.numbers.between(79, 82),
            3 => self.numbers.between(100, 900),
            _ => self.numbers.between(1, 60),
        }
    }

    pub fn dial_after(&self, advance: u32) -> u32 {
        (self.account.dial + advance) % self.span()
    }

    // Calls with fields that fit.

    pub fn open_on(&mut self, day: u32, digits: u32) -> u8 {
        let reading = self.some_reading(digits);
        self.send(day, What::Opening { reading, digits })
    }

    /// A day up to one, or the first day of a life that is moved.
    pub fn opening_day(&mut self, last_day: u32) -> u32 {
        self.opening = self.numbers.between(0, last_day);
        self.first.unwrap_or(self.opening)
    }

    pub fn open(&mut self, last_day: u32) -> u8 {
        let day = self.opening_day(last_day);
        let digits = self.digits();
        self.open_on(day, digits)
    }

    pub fn some_reading(&mut self, digits: u32) -> u32 {
        let span = meter::span(digits);
        match self.numbers.below(4) {
            0 => 0,
            1 => span - 1 - self.numbers.below(40),
            _ => self.numbers.below(span),
        }
    }

    pub fn read(&mut self, day: u32, advance: u32) -> u8 {
        let (reading, fuel) = (self.dial_after(advance), self.fuel());
        self.send(day, What::Reading { reading, fuel })
    }

    pub fn miss(&mut self, day: u32) -> u8 {
        let fuel = self.fuel();
        self.send(day, What::Missed { fuel })
    }

    pub fn absent(&mut self, day: u32) -> u8 {
        let fuel = self.fuel();
        self.send(day, What::Absent { fuel })
    }

    pub fn change(&mut self, day: u32, advance: u32) -> u8 {
        let digits = self.digits();
        self.change_to(day, advance, digits)
    }

    pub fn change_to(&mut self, day: u32, advance: u32, digits: u32) -> u8 {
        let (old, new) = (self.dial_after(advance), self.some_reading(digits));
        self.send(day, What::Change { old, new, digits })
    }

    pub fn stop(&mut self, day: u32, advance: u32) -> u8 {
        let (reading, fuel) = (self.dial_after(advance), self.fuel());
        self.send(day, What::Stop { reading, fuel })
    }

    pub fn resume(&mut self, day: u32) -> u8 {
        let digits = self.digits();
        let reading = self.some_reading(digits);
        self.send(day, What::Resumption { reading, digits })
    }

    pub fn cancel(&mut self, day: u32, advance: u32) -> u8 {
        let (reading, fuel) = (self.dial_after(advance), self.fuel());
        self.send(day, What::Cancellation { reading, fuel })
    }

    pub fn pay(&mut self, day: u32, yen: u32) -> u8 {
        self.send(day, What::Payment { yen })
    }

    /// A closing of any kind that leaves the account supplied.
    pub fn close(&mut self, day: u32) -> u8 {
        match self.numbers.below(10) {
            0 => self.miss(day),
            1 => self.absent(day),
            _ => {
                let advance = self.volume();
                self.read(day, advance)
            }
        }
    }

    /// Pays all, a part, a bit too much, or just the oldest item.
    pub fn pay_some(&mut self, day: u32) -> u8 {
        let yen = match self.numbers.below(6) {
            0 => self.oldest_unpaid(),
            1 => self.numbers.between(1, 2_000),
            2 => self.unpaid().saturating_add(self.numbers.between(1, 6_000)),
            3 => self.unpaid() / 2 + 1,
            _ => self.unpaid().max(1),
        };
        self.pay(day, yen.min(MOST_PAYMENT))
    }

    /// Supplies an account that is new or stopped.
    pub fn supply(&mut self, day: u32) {
        if self.account.status == Status::New {
            let digits = self.digits();
            self.open_on(day, digits);
        } else if self.stopped() {
            self.resume(day);
        }
    }

    /// Ends a life in one of several ways.
    pub fn end(&mut self) {
        let day = self.after(1, 40);
        let advance = self.volume();
        match self.numbers.below(4) {
            0 => {
                self.cancel(day, advance);
            }
            1 => {
                self.stop(day, advance);
                let day = self.after(0, 60);
                self.send(day, What::CancelStopped);
            }
            _ => return,
        }
        for _ in 0..self.numbers.below(4) {
            let day = self.after(0, 90);
            self.pay_some(day);
        }
    }

    // Calls with fields that mostly do not fit.

    pub fn odd_day(&mut self) -> u32 {
        let now = self.now();
        match self.numbers.below(8) {
            0 => now.saturating_sub(1),
            1 => LAST_CALL_DAY + 1,
            2 => u32::from(u16::MAX),
            3 => self.numbers.below(65_536),
            4 => LAST_CALL_DAY,
            5 => now,
            _ => now + self.numbers.below(40),
        }
    }

    pub fn odd_digits(&mut self) -> u32 {
        self.numbers.pick(&[4, 5, 4, 5, 3, 6, 0, 255])
    }

    pub fn odd_reading(&mut self) -> u32 {
        match self.numbers.below(6) {
            0 => self.numbers.pick(&[9_999, 10_000, 99_999, 100_000, u32::MAX]),
            1 => self.numbers.draw() as u32,
            2 => self.numbers.below(100_000),
            _ => {
                let advance = self.numbers.below(200);
                self.dial_after(advance)
            }
        }
    }

    pub fn odd_fuel_price(&mut self) -> u32 {
        match self.numbers.below(8) {
            0 => self.numbers.pick(&[300_000, 300_010, 300_001, 299_990, 5, u32::MAX]),
            1 => self.numbers.below(320_000),
            _ => self.fuel_price(0, MOST_FUEL_PRICE),
        }
    }

    pub fn odd_fuel(&mut self) -> Fuel {
        Fuel { lng: self.odd_fuel_price(), propane: self.odd_fuel_price() }
    }

    pub fn odd_payment(&mut self) -> u32 {
        match self.numbers.below(4) {
            0 => self.numbers.pick(&[0, MOST_PAYMENT, MOST_PAYMENT + 1, u32::MAX]),
            1 => self.numbers.draw() as u32,
            _ => self.numbers.between(1, 20_000),
        }
    }

    pub fn odd_what(&mut self) -> What {
        let reading = self.odd_reading();
        let digits = self.odd_digits();
        let fuel = self.odd_fuel();
        match self.numbers.below(16) {
            0 => What::Opening { reading, digits },
            1 | 2 => What::Missed { fuel },
            3 => What::Absent { fuel },
            4 | 5 => What::Change { old: reading, new: self.odd_reading(), digits },
            6 => What::Stop { reading, fuel },
            7 | 8 => What::Resumption { reading, digits },
            9 if self.numbers.chance(20) => What::Cancellation { reading, fuel },
            10 if self.numbers.chance(20) => What::CancelStopped,
            11 | 12 => What::Payment { yen: self.odd_payment() },
            _ => What::Reading { reading, fuel },
        }
    }

    /// Any of the ten calls, fields that fit.
    pub fn any_call(&mut self, day: u32) -> u8 {
        let advance = self.volume();
        match self.numbers.below(20) {
            0 => self.open_on(day, 4),
            1 => self.cancel(day, advance),
            2 => self.send(day, What::CancelStopped),
            3 | 4 => self.stop(day, advance),
            5..=7 => self.resume(day),
            8 | 9 => self.change(day, advance),
            10..=12 => self.pay_some(day),
            13 => self.miss(day),
            14 => self.absent(day),
            _ => self.read(day, advance),
        }
    }
}
