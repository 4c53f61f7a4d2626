//! A plain reference of the gas account, to compare other builds with.

pub mod account;
pub mod benchmarks;
pub mod book;
pub mod calendar;
pub mod calls;
pub mod check;
pub mod closed;
pub mod fast;
pub mod frames;
pub mod generator;
pub mod households;
pub mod ledger;
#[cfg(feature = "linked")]
pub mod linked;
pub mod lists;
pub mod meter;
pub mod notices;
pub mod process;
pub mod profiles;
pub mod rule;
pub mod shrink;
pub mod tariff;
pub mod tax;

use account::Account;
use rule::Rule;

/// What `bill` writes for an input and a list of closed days.
pub fn bill(input: &[u8], closed: &[u16], rule: Rule) -> Vec<u8> {
    let mut out = Vec::new();
    let mut account = Account::new();
    for line in frames::lines(input) {
        let (next, answer) = calls::take(account, frames::parse(line), closed, rule);
        account = next;
        frames::write_answer(&answer, &mut out);
    }
    out
}

/// What `notice` writes for an input and a list of closed days.
pub fn notice(input: &[u8], closed: &[u16], rule: Rule) -> Vec<u8> {
    let mut account = Account::new();
    for line in frames::lines(input) {
        account = calls::take(account, frames::parse(line), closed, rule).0;
    }
    let mut out = Vec::new();
    notices::write_notices(&account, &mut out);
    out
}
