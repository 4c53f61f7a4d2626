//! Shortens a failing life to the fewest and simplest lines that still fail,
//! and its list of closed days to the fewest.

use crate::calls::{Call, What};
use crate::closed::Closed;
use crate::frames;
use crate::generator::Life;
use crate::tariff::Fuel;

type Lines = Vec<Vec<u8>>;

/// Whether an input with closed days fails.
pub type Fails<'a> = dyn FnMut(&[u8], &Closed) -> bool + 'a;

/// A failing life by its number, and its shortened input and list.
pub struct Shortened {
    pub index: u64,
    pub life: Life,
    pub input: Vec<u8>,
    pub closed: Closed,
}

impl Shortened {
    pub fn lines(&self) -> usize {
        frames::lines(&self.input).count()
    }
}

/// Of the first failing lives, so many at most, the one that shortens to the
/// fewest lines; the first that needs no more than `enough` ends the search. A
/// life can shorten to lines of which none can go, and another to fewer.
pub fn shortest(
    lives: impl Iterator<Item = (u64, Life)>,
    tried: usize,
    enough: usize,
    fails: &mut Fails,
) -> Option<Shortened> {
    let mut found: Option<Shortened> = None;
    let mut failed = 0;
    for (index, life) in lives {
        if failed == tried || found.as_ref().is_some_and(|best| best.lines() <= enough) {
            break;
        }
        if fails(&life.input, &life.closed) {
            failed += 1;
            let (input, closed) = shrink(&life.input, &life.closed, fails);
            let shortened = Shortened { index, life, input, closed };
            if found.as_ref().is_none_or(|best| shortened.lines() < best.lines()) {
                found = Some(shortened);
            }
        }
    }
    found
}

/// Joins lines to an input; the last LF may lack.
pub fn join(lines: &[Vec<u8>], last_feed: bool) -> Vec<u8> {
    let mut input = lines.join(&b'\n');
    if last_feed && !lines.is_empty() {
        input.push(b'\n');
    }
    input
}

/// The shortened input and list. Nothing is listed, and no file is there, if
/// the failure doesn't need it.
pub fn shrink(input: &[u8], closed: &Closed, fails: &mut Fails) -> (Vec<u8>, Closed) {
    if fails(input, &Closed::none()) {
        return (shrink_input(input, &Closed::none(), fails), Closed::none());
    }
    let input = shrink_input(input, closed, fails);
    let closed = shrink_closed(&input, closed, fails);
    (shrink_input(&input, &closed, fails), closed)
}

fn shrink_input(input: &[u8], closed: &Closed, fails: &mut Fails) -> Vec<u8> {
    shrink_text(input, shrink_lines, &mut |input| fails(input, closed))
}

fn shrink_closed(input: &[u8], closed: &Closed, fails: &mut Fails) -> Closed {
    let Some(file) = closed.file() else {
        return Closed::none();
    };
    let mut fails = |file: &[u8]| fails(input, &Closed::in_file(file.to_vec()));
    Closed::in_file(shrink_text(file, remove_lines, &mut fails))
}

type TextFails<'a> = dyn FnMut(&[u8]) -> bool + 'a;
type LinesFail<'a> = dyn FnMut(&[Vec<u8>]) -> bool + 'a;

/// Shortens lines. The last LF lacks only if the failure needs that.
fn shrink_text(
    text: &[u8],
    shorten: fn(&mut Lines, &mut LinesFail),
    fails: &mut TextFails,
) -> Vec<u8> {
    let mut lines: Lines = frames::lines(text).map(<[u8]>::to_vec).collect();
    let last_feed = fails(&join(&lines, true));
    shorten(&mut lines, &mut |lines| fails(&join(lines, last_feed)));
    join(&lines, last_feed)
}

fn shrink_lines(lines: &mut Lines, fails: &mut LinesFail) {
    remove_parts(lines, fails);
    loop {
        let simpler = simplify(lines, fails);
        let shorter = remove_single(lines, fails);
        if !simpler && !shorter {
            return;
        }
    }
}

fn remove_lines(lines: &mut Lines, fails: &mut LinesFail) {
    remove_parts(lines, fails);
    remove_single(lines, fails);
}

/// Removes ever smaller runs of lines.
fn remove_parts(lines: &mut Lines, fails: &mut LinesFail) {
    let mut size = lines.len() / 2;
    while size > 0 {
        let mut from = 0;
        while from < lines.len() {
            let end = (from + size).min(lines.len());
            if !try_without(lines, from, end, fails) {
                from = end;
            }
        }
        size /= 2;
    }
}

/// Removes single lines and pairs until none can go.
fn remove_single(lines: &mut Lines, fails: &mut LinesFail) -> bool {
    let mut changed = false;
    for size in [1, 2] {
        let mut from = 0;
        while from + size <= lines.len() {
            if try_without(lines, from, from + size, fails) {
                changed = true;
                from = 0;
            } else {
                from += 1;
            }
        }
    }
    changed
}

fn try_without(lines: &mut Lines, from: usize, end: usize, fails: &mut LinesFail) -> bool {
    let mut shorter = lines.clone();
    shorter.drain(from..end);
    let failed = fails(&shorter);
    if failed {
        *lines = shorter;
    }
    failed
}

/// Replaces each line by simpler ones as long as the life fails.
fn simplify(lines: &mut Lines, fails: &mut LinesFail) -> bool {
    let mut changed = false;
    for place in 0..lines.len() {
        while simplify_line(lines, place, fails) {
            changed = true;
        }
    }
    changed
}

fn simplify_line(lines: &mut Lines, place: usize, fails: &mut LinesFail) -> bool {
    for simpler in simpler_lines(&lines[place]) {
        let kept = std::mem::replace(&mut lines[place], simpler);
        if fails(lines) {
            return true;
        }
        lines[place] = kept;
    }
    false
}

fn simpler_lines(line: &[u8]) -> Lines {
    match frames::parse(line) {
        Some(call) => simpler_calls(&call).iter().map(frames::line_of).collect(),
        None if line.is_empty() => Vec::new(),
        None => vec![Vec::new(), line[..line.len() / 2].to_vec(), line[..line.len() - 1].to_vec()],
    }
}

fn simpler_calls(call: &Call) -> Vec<Call> {
    let days = smaller(call.day).into_iter().map(|day| Call { day, ..*call });
    let whats = simpler_whats(call.what).into_iter().map(|what| Call { what, ..*call });
    days.chain(whats).collect()
}

/// Zero, a half, a tenth less, ten less, one less.
fn smaller(number: u32) -> Vec<u32> {
    let mut choices = vec![0, number / 2, number - number / 10];
    choices.push(number.saturating_sub(10));
    choices.push(number.saturating_sub(1));
    choices.retain(|&choice| choice < number);
    choices
}

const USUAL_FUEL: Fuel = Fuel { lng: 83_130, propane: 75_000 };

fn simpler_fuel(fuel: Fuel) -> Vec<Fuel> {
    if fuel == USUAL_FUEL {
        Vec::new()
    } else {
        vec![USUAL_FUEL]
    }
}

fn simpler_whats(what: What) -> Vec<What> {
    match what {
        What::Opening { reading, digits } => {
            smaller(reading).into_iter().map(|reading| What::Opening { reading, digits }).collect()
        }
        What::Resumption { reading, digits } => smaller(reading)
            .into_iter()
            .map(|reading| What::Resumption { reading, digits })
            .collect(),
        What::Reading { reading, fuel } => {
            with_reading(reading, fuel, |reading, fuel| What::Reading { reading, fuel })
        }
        What::Stop { reading, fuel } => {
            let mut simpler = vec![What::Reading { reading, fuel }];
            simpler
                .extend(with_reading(reading, fuel, |reading, fuel| What::Stop { reading, fuel }));
            simpler
        }
        What::Cancellation { reading, fuel } => {
            let mut simpler = vec![What::Reading { reading, fuel }];
            simpler.extend(with_reading(reading, fuel, |reading, fuel| What::Cancellation {
                reading,
                fuel,
            }));
            simpler
        }
        What::Missed { fuel } => {
            simpler_fuel(fuel).into_iter().map(|fuel| What::Missed { fuel }).collect()
        }
        What::Absent { fuel } => {
            simpler_fuel(fuel).into_iter().map(|fuel| What::Absent { fuel }).collect()
        }
        What::Change { old, new, digits } => {
            let olds = smaller(old).into_iter().map(|old| What::Change { old, new, digits });
            let news = smaller(new).into_iter().map(|new| What::Change { old, new, digits });
            olds.chain(news).collect()
        }
        What::Payment { yen } => {
            smaller(yen).into_iter().map(|yen| What::Payment { yen }).collect()
        }
        What::CancelStopped => Vec::new(),
    }
}

fn with_reading(reading: u32, fuel: Fuel, make: fn(u32, Fuel) -> What) -> Vec<What> {
    let fuels = simpler_fuel(fuel).into_iter().map(|fuel| make(reading, fuel));
    let readings = smaller(reading).into_iter().map(|reading| make(reading, fuel));
    fuels.chain(readings).collect()
}
