//! Dials and volumes (article 14).

/// The largest pool and the largest volume (number 10).
pub const MOST_POOL: u32 = 99_999;

/// The span of a dial of 4 or 5 digits.
pub fn span(digits: u32) -> u32 {
    if digits == 4 {
        10_000
    } else {
        100_000
    }
}

pub fn digits_allowed(digits: u32) -> bool {
    digits == 4 || digits == 5
}

/// New − old, plus the span if that is negative (H).
pub fn advance(old: u32, new: u32, span: u32) -> u32 {
    if new >= old {
        new - old
    } else {
        new + span - old
    }
}

/// The pool shared among periods, latest first: each takes what is left
/// divided by the periods left, rounded up (14(5) for one, H for more).
pub fn share(pool: u32, periods: usize) -> Vec<u32> {
    let mut left = pool;
    let mut parts = Vec::with_capacity(periods);
    for periods_left in (1..=periods as u32).rev() {
        let part = left.div_ceil(periods_left);
        left -= part;
        parts.push(part);
    }
    parts
}
