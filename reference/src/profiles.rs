//! The profiles of generated lives, plausible and hostile ones and ones that
//! sit at each limit.

use crate::calendar::LAST_CALL_DAY;
use crate::calls::{Call, What};
use crate::closed::TERM;
use crate::frames;
use crate::generator::Maker;
use crate::ledger::{Item, Kind, MOST_CREDIT, MOST_ITEMS, MOST_PAYMENT};
use crate::meter::MOST_POOL;
use crate::tariff::Fuel;
use crate::tax::RISE;

pub type Profile = fn(&mut Maker);

/// A name that lists of closed days go by.
pub const END_OF_CALENDAR: &str = "end of calendar";
const RISE_OF_THE_TAX: &str = "rise of the tax";

/// Profiles that choose their days themselves.
pub const OWN_DAYS: [&str; 2] = [END_OF_CALENDAR, RISE_OF_THE_TAX];

/// Name, weight and maker of each profile.
pub const PROFILES: [(&str, u32, Profile); 27] = [
    ("monthly", 12, monthly),
    ("late payer", 8, late_payer),
    ("misses", 10, misses),
    ("small readings", 8, small_readings),
    ("hostile bytes", 4, hostile_bytes),
    ("random fields", 5, random_fields),
    ("wrong status", 4, wrong_status),
    ("two causes", 4, two_causes),
    ("full ledger", 4, full_ledger),
    ("full ledger, interest held", 4, full_ledger_held),
    ("half span", 4, half_span),
    ("roll-over", 4, roll_over),
    ("pool limit", 4, pool_limit),
    ("credit limit", 4, credit_limit),
    ("credit limit by net", 3, credit_limit_by_net),
    (END_OF_CALENDAR, 5, end_of_calendar),
    ("zero days", 3, zero_days),
    ("stop and resume", 4, stop_and_resume),
    ("late cancellation", 4, late_cancellation),
    ("after cancellation", 4, after_cancellation),
    ("far days", 3, far_days),
    ("long", 1, long),
    ("ten days late", 4, ten_days_late),
    (RISE_OF_THE_TAX, 5, rise_of_the_tax),
    ("parts", 8, parts),
    ("late parts by nets", 4, late_parts_by_nets),
    ("absences", 8, absences),
];

// ---- Plausible lives ----

/// One month: a closing, perhaps a meter change or a stop, and payments.
pub fn month(m: &mut Maker, latest_pay: u32) {
    if m.numbers.chance(4) {
        let (day, advance) = (m.after(1, 20), m.volume());
        m.change(day, advance);
    }
    let day = m.after(20, 36);
    if m.numbers.chance(3) {
        let advance = m.volume();
        m.stop(day, advance);
        let day = m.after(0, 90);
        m.resume(day);
    } else {
        m.close(day);
    }
    if m.numbers.chance(80) {
        let day = m.after(1, latest_pay);
        m.pay_some(day);
    }
}

fn monthly(m: &mut Maker) {
    m.open(30_000);
    for _ in 0..m.numbers.between(10, 50) {
        month(m, 25);
    }
    m.end();
}

fn late_payer(m: &mut Maker) {
    m.open(25_000);
    for _ in 0..m.numbers.between(8, 30) {
        for _ in 0..m.numbers.between(1, 4) {
            let day = m.after(25, 35);
            m.close(day);
        }
        let day = m.after(0, 60);
        m.pay_some(day);
    }
    m.end();
}

/// Runs of misses of both kinds, up to a seventh, then a real reading.
fn misses(m: &mut Maker) {
    m.open(20_000);
    for _ in 0..m.numbers.between(4, 14) {
        let (day, advance) = (m.after(20, 40), m.volume());
        m.read(day, advance);
        for _ in 0..m.numbers.between(0, 7) {
            let day = m.after(1, 45);
            if m.numbers.chance(70) {
                m.miss(day);
            } else {
                m.absent(day);
            }
        }
        close_after_misses(m);
        if m.numbers.chance(40) {
            let day = m.after(0, 80);
            m.pay_some(day);
        }
    }
    m.end();
}

/// A real reading about what the estimates add up to.
fn close_after_misses(m: &mut Maker) {
    let estimated: u32 = m.account.estimates.iter().map(|e| e.volume).sum();
    let wanted = match m.numbers.below(4) {
        0 => estimated.saturating_sub(m.numbers.between(0, 2)),
        1 => estimated + m.numbers.below(40),
        _ => m.numbers.between(0, estimated),
    };
    let advance = wanted.saturating_sub(m.account.pool).min(m.span() / 2);
    let day = m.after(1, 40);
    match m.numbers.below(12) {
        0 => {
            m.stop(day, advance);
            let day = m.after(0, 20);
            m.resume(day);
        }
        1 => {
            let half = advance / 2;
            m.change(day, half);
            m.read(day, advance - half);
        }
        _ => {
            m.read(day, advance);
        }
    }
}

/// One large reading, misses that repeat it, then small ones that revise.
fn small_readings(m: &mut Maker) {
    m.open(15_000);
    for _ in 0..m.numbers.between(5, 16) {
        let day = m.after(1, 50);
        let advance = m.numbers.between(50, m.span() / 2);
        m.read(day, advance);
        for _ in 0..m.numbers.between(1, 6) {
            let day = m.after(1, 60);
            if m.numbers.chance(80) {
                m.miss(day);
            } else {
                m.absent(day);
            }
        }
        let (day, advance) = (m.after(1, 100), m.numbers.below(30));
        m.read(day, advance);
        if m.numbers.chance(30) {
            let day = m.after(0, 60);
            m.pay_some(day);
        }
    }
    m.end();
}

fn long(m: &mut Maker) {
    m.open(100);
    for _ in 0..m.numbers.between(200, 700) {
        month(m, 30);
        if m.stopped() || m.open_items() > 60 {
            let (day, yen) = (m.now(), m.unpaid().max(1));
            m.pay(day, yen);
        }
    }
    m.end();
}

// ---- Hostile lives ----

fn hostile_bytes(m: &mut Maker) {
    if m.numbers.chance(80) {
        m.open(30_000);
    }
    for _ in 0..m.numbers.between(20, 90) {
        let line = if m.numbers.chance(35) { good_line(m) } else { bad_line(m) };
        m.line(&line);
    }
}

/// A line of a call that fits a supplied account.
fn good_line(m: &mut Maker) -> Vec<u8> {
    let day = m.after(1, 40);
    let (reading, fuel) = (m.dial_after(30), m.fuel());
    let what = match m.numbers.below(4) {
        0 => What::Missed { fuel },
        1 => What::Payment { yen: m.numbers.between(1, 9_000) },
        2 => What::Change { old: reading, new: 7, digits: 4 },
        _ => What::Reading { reading, fuel },
    };
    frames::line_of(&Call { day, what })
}

fn bad_line(m: &mut Maker) -> Vec<u8> {
    match m.numbers.below(8) {
        0 => Vec::new(),
        1 => random_bytes(m, 256),
        2 => random_hex(m),
        3 => upper_case(m),
        4 => spoilt_character(m),
        5 => shorter_line(m),
        6 => longer_line(m),
        _ => other_kind(m),
    }
}

fn random_bytes(m: &mut Maker, bound: u32) -> Vec<u8> {
    let bytes = m.numbers.below(70);
    (0..bytes).map(|_| m.numbers.below(bound) as u8).collect()
}

fn random_hex(m: &mut Maker) -> Vec<u8> {
    let characters = m.numbers.below(40);
    (0..characters).map(|_| b"0123456789abcdef"[m.numbers.below(16) as usize]).collect()
}

fn upper_case(m: &mut Maker) -> Vec<u8> {
    let mut line = good_line(m);
    let last = line.len() - 1;
    line[last] = m.numbers.pick(b"ABCDEF");
    line
}

fn spoilt_character(m: &mut Maker) -> Vec<u8> {
    let mut line = good_line(m);
    let place = m.numbers.below(line.len() as u32) as usize;
    line[place] = m.numbers.pick(b"gz/:`@G \r\t\0x\xff");
    line
}

fn shorter_line(m: &mut Maker) -> Vec<u8> {
    let mut line = good_line(m);
    let length = m.numbers.below(line.len() as u32) as usize;
    line.truncate(length);
    line
}

fn longer_line(m: &mut Maker) -> Vec<u8> {
    let mut line = good_line(m);
    let added = m.numbers.pick(&[1, 2, 3, 8, 60, 500]);
    line.resize(line.len() + added, b'0');
    if m.numbers.chance(30) {
        line.rotate_right(added);
    }
    line
}

fn other_kind(m: &mut Maker) -> Vec<u8> {
    let mut line = good_line(m);
    let kind = m.numbers.pick(&[0, 1, 3, 4, 6, 10, 11, 16, 32, 128, 255]);
    let mut kind_characters = Vec::new();
    frames::encode(&[kind], &mut kind_characters);
    line[..2].copy_from_slice(&kind_characters);
    line
}

fn random_fields(m: &mut Maker) {
    if m.numbers.chance(85) {
        m.open(36_000);
    }
    for _ in 0..m.numbers.between(20, 90) {
        let day = if m.numbers.chance(30) { m.odd_day() } else { m.after(0, 30) };
        let what = m.odd_what();
        m.send(day, what);
    }
}

fn wrong_status(m: &mut Maker) {
    for _ in 0..m.numbers.between(0, 4) {
        let day = m.after(0, 10);
        m.any_call(day);
    }
    for _ in 0..m.numbers.between(20, 80) {
        let day = m.after(0, 20);
        m.any_call(day);
        if m.numbers.chance(15) {
            m.supply(day);
        }
    }
}

/// Calls with two or more things wrong at once: the first number wins.
fn two_causes(m: &mut Maker) {
    m.open(36_000);
    for _ in 0..m.numbers.between(2, 8) {
        let (day, advance) = (m.after(1, 10), m.volume());
        m.read(day, advance);
    }
    for _ in 0..m.numbers.between(20, 70) {
        let day = m.odd_day();
        let reading = m.odd_reading().max(m.span() - 1);
        let digits = m.numbers.pick(&[3, 6, 4]);
        let fuel = Fuel { lng: m.odd_fuel_price() | 1, propane: m.odd_fuel_price() };
        let what = match m.numbers.below(8) {
            0 => What::Opening { reading, digits },
            1 => What::Resumption { reading, digits },
            2 => What::Change { old: reading, new: m.odd_reading(), digits },
            3 => What::Payment { yen: m.numbers.pick(&[0, u32::MAX]) },
            4 => What::Missed { fuel },
            5 => What::Change { old: m.odd_reading(), new: reading, digits },
            _ => What::Reading { reading, fuel },
        };
        m.send(day, what);
        if m.numbers.chance(20) {
            let day = m.after(0, 5);
            m.close(day);
        }
    }
}

// ---- Lives at the ledger's limits ----

/// Closings a day or two apart until so many items stand open.
fn fill_items(m: &mut Maker, items: usize) {
    for _ in 0..200 {
        if m.open_items() >= items {
            return;
        }
        let (day, advance) = (m.after(1, 2), m.numbers.below(20));
        let number = match m.numbers.chance(15) {
            true => m.miss(day),
            false => m.read(day, advance),
        };
        if number == 1 || number == 12 {
            return;
        }
    }
}

fn full_ledger(m: &mut Maker) {
    m.open(30_000);
    fill_items(m, MOST_ITEMS);
    for _ in 0..m.numbers.between(2, 10) {
        for _ in 0..m.numbers.between(1, 2) {
            let (day, advance) = (m.after(1, 3), m.numbers.below(20));
            if m.numbers.chance(5) {
                m.cancel(day, advance);
            } else {
                m.read(day, advance);
            }
        }
        let day = m.after(0, 1);
        let yen = m.oldest_unpaid();
        m.pay(day, yen);
        fill_items(m, MOST_ITEMS);
    }
    m.end();
}

/// 71 items and interest held: a closing would post two.
fn full_ledger_held(m: &mut Maker) {
    m.open(30_000);
    fill_items(m, MOST_ITEMS);
    let wait = m.numbers.between(20, 60);
    for _ in 0..m.numbers.between(2, 6) {
        let (day, yen) = (m.after(wait, wait + 5), m.oldest_unpaid());
        m.pay(day, yen);
        let (day, advance) = (m.after(1, 3), m.numbers.below(20));
        match m.numbers.below(6) {
            0 => m.cancel(day, advance),
            1 => m.stop(day, advance),
            _ => m.read(day, advance),
        };
        if m.numbers.chance(50) {
            let (day, yen) = (m.after(0, 1), m.oldest_unpaid());
            m.pay(day, yen);
        }
        fill_items(m, MOST_ITEMS);
    }
    m.end();
}

fn fill_credit(m: &mut Maker, wanted: u64) {
    for _ in 0..14 {
        let credit = m.account.ledger.credit;
        let missing = (wanted + m.account.ledger.unpaid()).saturating_sub(credit);
        if missing == 0 {
            return;
        }
        let day = m.after(0, 2);
        m.pay(day, missing.min(u64::from(MOST_PAYMENT)) as u32);
    }
}

fn credit_limit(m: &mut Maker) {
    m.open(30_000);
    for _ in 0..m.numbers.between(0, 4) {
        let day = m.after(10, 40);
        m.close(day);
    }
    let short = u64::from(m.numbers.below(3));
    fill_credit(m, MOST_CREDIT - short);
    for _ in 0..m.numbers.between(4, 20) {
        let day = m.after(0, 20);
        let room = (MOST_CREDIT - m.account.ledger.credit) as u32;
        match m.numbers.below(8) {
            0 => m.close(day),
            1 => m.pay(day, MOST_PAYMENT),
            2 | 3 => m.pay(day, room.clamp(1, MOST_PAYMENT)),
            4 => m.cancel(day, 0),
            _ => {
                let over = room + m.numbers.between(1, 3);
                m.pay(day, over.min(MOST_PAYMENT))
            }
        };
    }
    m.end();
}

/// A net below zero that would take credit past its limit.
fn credit_limit_by_net(m: &mut Maker) {
    m.open(30_000);
    for _ in 0..m.numbers.between(1, 3) {
        let (day, advance) = (m.after(20, 40), m.numbers.between(100, 5_000));
        m.read(day, advance);
        for _ in 0..m.numbers.between(1, 3) {
            let day = m.after(20, 40);
            m.miss(day);
        }
        let short = m.numbers.pick(&[0, 1, 10_000, 600_000, 3_000_000]);
        fill_credit(m, MOST_CREDIT - short);
        for _ in 0..m.numbers.between(1, 6) {
            let (day, advance) = (m.after(1, 40), m.numbers.below(10));
            match m.numbers.below(5) {
                0 => m.stop(day, advance),
                1 => m.cancel(day, advance),
                _ => m.read(day, advance),
            };
        }
        let day = m.after(1, 30);
        m.supply(day);
    }
    m.end();
}

// ---- Lives at the meter's limits ----

fn half_span(m: &mut Maker) {
    m.open(30_000);
    for _ in 0..m.numbers.between(15, 60) {
        let day = m.after(0, 30);
        let half = m.span() / 2;
        let advance = match m.numbers.below(6) {
            0 => half + 1,
            1 => half - 1,
            2 => m.numbers.between(half + 1, m.span() - 1),
            3 => m.numbers.below(half),
            _ => half,
        };
        if m.numbers.chance(40) {
            m.change(day, advance);
        } else {
            m.read(day, advance);
        }
        if m.numbers.chance(20) {
            let day = m.after(0, 60);
            m.pay_some(day);
        }
    }
    m.end();
}

fn roll_over(m: &mut Maker) {
    m.open(30_000);
    for _ in 0..m.numbers.between(10, 40) {
        let to_end = m.span() - m.account.dial;
        let day = m.after(1, 30);
        let advance = match m.numbers.below(4) {
            0 => to_end - 1,
            1 => to_end,
            _ => to_end + m.numbers.below(40),
        };
        let advance = advance.min(m.span() / 2);
        match m.numbers.below(8) {
            0 | 1 => m.change(day, advance),
            2 => m.stop(day, advance),
            _ => m.read(day, advance),
        };
        if m.stopped() {
            let day = m.after(0, 9);
            m.resume(day);
        }
        if m.numbers.chance(50) {
            let near_end = m.span() - 1 - m.numbers.below(30);
            let day = m.now();
            let (old, digits) = (m.account.dial, m.account.digits);
            m.send(day, What::Change { old, new: near_end, digits });
        }
    }
    m.end();
}

/// Meter changes that take the pool to 99,999 and past it.
fn pool_limit(m: &mut Maker) {
    let day = m.opening_day(29_999);
    m.open_on(day, 5);
    for _ in 0..m.numbers.between(2, 6) {
        fill_pool(m);
        for _ in 0..m.numbers.between(1, 4) {
            let day = m.after(0, 5);
            let room = MOST_POOL - m.account.pool;
            let over = room + m.numbers.between(1, 3);
            match m.numbers.below(4) {
                0 => m.change_to(day, room.min(m.span() / 2), 5),
                1 => m.read(day, over.min(m.span() / 2)),
                _ => m.change_to(day, over.min(m.span() / 2), 5),
            };
        }
        let (day, room) = (m.after(0, 40), MOST_POOL - m.account.pool);
        let advance = m.numbers.pick(&[0, room, room / 2]).min(m.span() / 2);
        m.read(day, advance);
        for _ in 0..m.numbers.below(4) {
            let day = m.after(1, 40);
            m.miss(day);
        }
    }
    m.end();
}

fn fill_pool(m: &mut Maker) {
    for _ in 0..30 {
        let room = MOST_POOL - m.account.pool;
        let half = m.span() / 2;
        if room <= 5 {
            return;
        }
        let advance = m.numbers.pick(&[half, half, half / 3 + 1]).min(room);
        let advance = if advance == room { room - m.numbers.below(3) } else { advance };
        let day = m.after(0, 1);
        m.change_to(day, advance, 5);
    }
}

// ---- Lives at the limits of days ----

fn end_of_calendar(m: &mut Maker) {
    let day = m.numbers.between(LAST_CALL_DAY - 194, LAST_CALL_DAY);
    let digits = m.digits();
    m.open_on(day, digits);
    for _ in 0..m.numbers.between(15, 60) {
        let left = LAST_CALL_DAY - m.now();
        let day = match m.numbers.below(8) {
            0 => LAST_CALL_DAY + m.numbers.between(1, 3),
            1 if m.numbers.chance(30) => LAST_CALL_DAY,
            2 => m.numbers.between(LAST_CALL_DAY + 1, 65_535),
            _ => m.now() + m.numbers.below(left.min(12) + 1),
        };
        match m.numbers.below(4) {
            0 => m.pay_some(day),
            _ => m.close(day),
        };
    }
    m.end();
}

/// Estimates and items of the last days of the old tax rate and of the first
/// of the new; small readings that revise, and late payments.
fn rise_of_the_tax(m: &mut Maker) {
    let (day, digits) = (RISE - m.numbers.between(40, 300), m.digits());
    m.open_on(day, digits);
    let (day, advance) = (m.after(5, 35), m.numbers.between(5, 900));
    m.read(day, advance);
    for _ in 0..m.numbers.below(4) {
        let day = m.after(1, 40).min(RISE - 3);
        m.miss(day);
    }
    for (day, percent) in [(RISE - 2, 10), (RISE - 1, 60), (RISE, 60), (RISE + 1, 10)] {
        if m.numbers.chance(percent) {
            close_or_miss(m, day);
        }
    }
    for _ in 0..m.numbers.between(1, 4) {
        close_after_misses(m);
        pay_late(m);
    }
    for _ in 0..m.numbers.below(6) {
        month(m, 60);
    }
    m.end();
}

fn close_or_miss(m: &mut Maker, day: u32) {
    match m.numbers.below(4) {
        0 => m.close(day),
        1 => m.absent(day),
        _ => m.miss(day),
    };
}

/// Pays the oldest item or all, most often more than ten days after the oldest
/// one's due day.
fn pay_late(m: &mut Maker) {
    let Some(oldest) = m.account.ledger.items.first().copied() else {
        return;
    };
    let day = oldest.due + m.numbers.pick(&[0, 10, 11, 12, 14, 30, 300]);
    let yen = m.numbers.pick(&[oldest.unpaid as u32, m.unpaid()]);
    let day = day.max(m.now());
    m.pay(day, yen);
}

/// Items paid 9 to 12 days after their due day, or after the day that would be
/// due day if none were closed.
fn ten_days_late(m: &mut Maker) {
    m.open(25_000);
    let mut closing = m.now();
    for _ in 0..m.numbers.between(3, 20) {
        closing += m.numbers.between(50, 100);
        let (day, advance) = (closing.max(m.now()), m.volume());
        if m.numbers.chance(4) {
            m.cancel(day, advance);
        } else {
            m.read(day, advance);
        }
        let Some(oldest) = m.account.ledger.items.first().copied() else {
            continue;
        };
        let from = if m.numbers.chance(60) { oldest.due } else { oldest.obligation + TERM };
        let day = (from + m.numbers.pick(&[9, 10, 10, 11, 11, 12])).max(m.now());
        let yen = m.numbers.pick(&[oldest.unpaid as u32, m.unpaid(), m.unpaid()]);
        m.pay(day, yen);
    }
    m.end();
}

/// Closings on the day of the last closing.
fn zero_days(m: &mut Maker) {
    m.open(30_000);
    for _ in 0..m.numbers.between(15, 60) {
        let day = m.after(0, 1);
        match m.numbers.below(10) {
            0 => {
                let advance = m.volume();
                m.stop(day, advance);
                let day = m.after(0, 1);
                m.resume(day);
            }
            1 => {
                m.pay_some(day);
            }
            2 => {
                let advance = m.volume();
                m.change(day, advance);
            }
            _ => {
                m.close(day);
            }
        }
        if m.numbers.chance(20) && m.open_items() > 0 {
            let (day, yen) = (m.now(), m.unpaid());
            m.pay(day, yen);
        }
    }
    m.end();
}

/// Many stops; resumptions on the stop day or later; payments between.
fn stop_and_resume(m: &mut Maker) {
    m.open(25_000);
    for _ in 0..m.numbers.between(10, 30) {
        for _ in 0..m.numbers.below(3) {
            let day = m.after(0, 35);
            m.close(day);
        }
        let (day, advance) = (m.after(0, 35), m.volume());
        m.stop(day, advance);
        if m.numbers.chance(40) {
            let day = m.after(0, 60);
            m.pay_some(day);
        }
        let day = m.after(0, 1) + m.numbers.pick(&[0, 0, 1, 30]);
        m.resume(day.min(LAST_CALL_DAY));
        if m.numbers.chance(30) {
            let (day, advance) = (m.after(0, 1), m.volume());
            m.stop(day, advance);
            let day = m.after(0, 0);
            m.resume(day);
        }
    }
    m.end();
}

/// A cancellation whose net below zero settles late items.
fn late_cancellation(m: &mut Maker) {
    m.open(25_000);
    for _ in 0..m.numbers.between(0, 30) {
        month(m, 60);
    }
    for _ in 0..m.numbers.between(1, 10) {
        let (day, advance) = (m.after(20, 35), m.numbers.between(1, 30));
        m.read(day, advance);
    }
    let (day, advance) = (m.after(20, 35), m.numbers.between(100, 900));
    m.read(day, advance);
    for _ in 0..m.numbers.between(1, 6) {
        let day = m.after(20, 35);
        m.miss(day);
    }
    if m.numbers.chance(40) {
        let day = m.after(1, 50);
        m.pay_some(day);
    }
    let (day, advance) = (m.after(1, 90), m.numbers.below(20));
    if m.numbers.chance(75) {
        m.cancel(day, advance);
    } else {
        m.stop(day, advance);
        let day = m.after(0, 30);
        m.send(day, What::CancelStopped);
    }
    for _ in 0..m.numbers.between(2, 30) {
        let day = m.after(0, 40);
        m.pay_some(day);
    }
}

fn after_cancellation(m: &mut Maker) {
    m.open(25_000);
    for _ in 0..m.numbers.between(3, 40) {
        let day = m.after(1, 35);
        m.close(day);
    }
    if m.numbers.chance(30) {
        let day = m.after(0, 60);
        m.pay_some(day);
    }
    let (day, advance) = (m.after(1, 35), m.volume());
    if m.numbers.chance(50) {
        m.cancel(day, advance);
    } else {
        m.stop(day, advance);
        let day = m.after(0, 99);
        m.pay_some(day);
        let day = m.after(0, 35);
        m.send(day, What::CancelStopped);
    }
    for _ in 0..m.numbers.between(10, 50) {
        let day = m.after(0, 30);
        match m.numbers.below(8) {
            0 => m.any_call(day),
            1 => {
                let yen = m.oldest_unpaid().saturating_sub(1).max(1);
                m.pay(day, yen)
            }
            2 | 3 => {
                let yen = m.oldest_unpaid();
                m.pay(day, yen)
            }
            4 => m.pay_some(day),
            _ => {
                let yen = m.numbers.between(1, 3_000);
                m.pay(day, yen)
            }
        };
    }
}

/// Long periods, large volumes, dear fuel and payments decades late.
fn far_days(m: &mut Maker) {
    m.open(200);
    for _ in 0..m.numbers.between(10, 60) {
        let day = match m.numbers.below(12) {
            0 => m.after(1_000, 20_000),
            1 => m.after(100, 3_000),
            _ => m.after(1, 200),
        };
        let advance = m.numbers.between(0, m.span() / 2);
        match m.numbers.below(8) {
            0 => m.miss(day),
            1 => m.absent(day),
            2 => m.pay_some(day),
            3 => m.change(day, advance),
            _ => m.read(day, advance),
        };
    }
    for _ in 0..m.numbers.below(12) {
        let day = m.after(0, 30_000);
        m.pay(day, MOST_PAYMENT);
    }
    m.end();
}

// ---- Lives of items paid in parts ----

/// Bills of which the oldest is paid in two to eight parts, in time and late;
/// at times a part is paid before a bill is posted.
fn parts(m: &mut Maker) {
    m.open(25_000);
    for _ in 0..m.numbers.between(3, 12) {
        for _ in 0..m.numbers.pick(&[1, 1, 2, 3]) {
            if m.numbers.chance(15) && m.open_items() == 0 {
                let (day, yen) = (m.after(0, 5), m.numbers.between(1, 4_000));
                m.pay(day, yen);
            }
            let day = m.after(5, 35);
            m.close(day);
        }
        pay_in_parts(m);
    }
    m.end();
}

/// Pays the oldest price item in two to eight parts, the last one of all that is
/// left of it; the first one pays the interest before it too.
fn pay_in_parts(m: &mut Maker) {
    for left in (0..m.numbers.between(2, 8)).rev() {
        let items = &m.account.ledger.items;
        let Some(place) = items.iter().position(|item| item.kind == Kind::Price) else {
            return;
        };
        let item = items[place];
        let before: u64 = items[..place].iter().map(|item| item.unpaid).sum();
        let day = day_of_part(m, &item);
        if m.numbers.chance(8) {
            let closing = m.numbers.between(m.now(), day);
            m.close(closing);
        }
        let part = if left == 0 { item.unpaid } else { part_of(m, &item, left) };
        m.pay(day, (before + part).min(u64::from(MOST_PAYMENT)) as u32);
    }
}

/// In time, or about ten days late from the due day or from the day that would
/// be due day if none were closed, or later.
fn day_of_part(m: &mut Maker, item: &Item) -> u32 {
    let from = if m.numbers.chance(70) { item.due } else { item.obligation + TERM };
    let day = match m.numbers.below(10) {
        0 | 1 => m.after(0, 9),
        2..=4 => from + 10,
        5..=7 => from + 11,
        8 => from + m.numbers.pick(&[0, 9, 12, 13]),
        _ => m.after(1, 150),
    };
    day.max(m.now()).min(LAST_CALL_DAY)
}

/// A part that ends inside the body, with it or inside the tax, with so many
/// parts left behind it.
fn part_of(m: &mut Maker, item: &Item, left: u32) -> u64 {
    let (share, tax) = (item.share as u32, (item.unpaid - item.share) as u32);
    let yen = match m.numbers.below(10) {
        0 => share,
        1 => share + m.numbers.between(0, tax),
        2 => 1,
        3 => share.saturating_sub(1),
        _ => m.numbers.between(1, 1 + share / left),
    };
    u64::from(yen).clamp(1, item.unpaid)
}

/// Late bills of which a net below zero pays a part, the rest paid in parts.
fn late_parts_by_nets(m: &mut Maker) {
    m.open(25_000);
    for _ in 0..m.numbers.between(2, 6) {
        let (day, advance) = (m.after(20, 40), m.numbers.between(20, 900));
        m.read(day, advance);
        for _ in 0..m.numbers.between(1, 3) {
            let day = m.after(10, 40);
            m.miss(day);
        }
        if m.numbers.chance(50) {
            let (day, yen) = (m.after(0, 50), m.numbers.between(1, m.oldest_unpaid()));
            m.pay(day, yen);
        }
        let estimated: u32 = m.account.estimates.iter().map(|e| e.volume).sum();
        let (day, advance) = (m.after(1, 60), m.numbers.below(estimated + 1));
        if m.numbers.chance(5) {
            m.cancel(day, advance);
        } else {
            m.read(day, advance);
        }
        for _ in 0..m.numbers.between(1, 3) {
            pay_in_parts(m);
        }
    }
    m.end();
}

// ---- Lives of absences ----

/// Absences and misses behind the opening, a reading, at times one that revised,
/// or a stop and a resumption.
fn absences(m: &mut Maker) {
    m.open(25_000);
    if m.numbers.chance(40) {
        read_or_stop(m);
    }
    for _ in 0..m.numbers.between(4, 13) {
        for _ in 0..m.numbers.pick(&[1, 2, 2, 3]) {
            absent_then_missed(m);
        }
        close_after_misses(m);
        if m.numbers.chance(50) {
            let day = m.after(0, 60);
            m.pay_some(day);
        }
        if m.numbers.chance(65) {
            read_or_stop(m);
        }
    }
    m.end();
}

fn read_or_stop(m: &mut Maker) {
    let (day, advance) = (m.after(1, 40), m.volume());
    if m.numbers.chance(75) {
        m.read(day, advance);
    } else {
        m.stop(day, advance);
        let day = m.after(0, 40);
        m.resume(day);
    }
}

/// Up to three absences, then up to two misses.
fn absent_then_missed(m: &mut Maker) {
    for _ in 0..m.numbers.pick(&[0, 1, 1, 1, 2, 3]) {
        let day = m.after(1, 45);
        m.absent(day);
    }
    for _ in 0..m.numbers.pick(&[0, 1, 1, 2]) {
        let day = m.after(1, 45);
        m.miss(day);
    }
}
