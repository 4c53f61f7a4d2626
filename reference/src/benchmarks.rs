//! Plausible inputs for benchmarks: one long life, or many small ones.

use crate::calendar::LAST_CALL_DAY;
use crate::generator::Maker;
use crate::profiles;

/// One supplied life of so many lines, spread over all days calls may have.
pub fn long_life(lines: u64, seed: u64) -> Vec<u8> {
    let mut maker = Maker::new(seed);
    let mut closing = 0;
    if lines > 0 {
        maker.open_on(0, 5);
    }
    for line in 1..lines {
        let day = (line * u64::from(LAST_CALL_DAY) / lines) as u32;
        if maker.stopped() {
            maker.resume(day);
        } else if day >= closing && day > maker.now_closed() {
            close(&mut maker, day);
            closing = day + maker.numbers.pick(&[1, 1, 2, 3, 7, 28, 30]);
        } else {
            between_closings(&mut maker, day);
        }
    }
    maker.into_input()
}

/// Mostly real readings; now and then a miss or a stop.
fn close(maker: &mut Maker, day: u32) {
    let advance = maker.volume();
    match maker.numbers.below(100) {
        0..=7 if maker.account.estimates.len() < 6 => maker.miss(day),
        8..=11 if maker.account.estimates.len() < 6 => maker.absent(day),
        12 => maker.stop(day, advance),
        _ => maker.read(day, advance),
    };
}

/// Payments and meter changes, and at times a line that is declined.
fn between_closings(maker: &mut Maker, day: u32) {
    if maker.open_items() > 40 {
        let yen = maker.unpaid();
        maker.pay(day, yen);
        return;
    }
    // In one of eight stretches nobody pays, so that some items fall late.
    let dry = day / 64 % 8 == 7;
    let advance = maker.numbers.below(4);
    match maker.numbers.below(100) {
        0..=39 => maker.change(day, advance),
        _ if dry => maker.change(day, advance),
        40 => maker.pay(day, 0),
        41 => maker.read(day, maker.span() / 2 + 1),
        _ => {
            let unpaid = maker.unpaid();
            let yen = maker.numbers.between(1, 200.max(unpaid / 8));
            maker.pay(day, yen)
        }
    };
}

/// A life of about twenty lines.
pub fn small_life(seed: u64) -> Vec<u8> {
    let mut maker = Maker::new(seed);
    maker.open(30_000);
    let lines = maker.numbers.between(16, 22) as usize;
    while maker.lines < lines {
        profiles::month(&mut maker, 45);
    }
    maker.into_input()
}
