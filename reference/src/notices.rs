//! Notices of open items ("Notices").

use crate::account::Account;
use crate::calendar;
use crate::frames;
use crate::ledger::{Item, Kind};

/// Writes a notice of each open item, oldest first.
pub fn write_notices(account: &Account, out: &mut Vec<u8>) {
    for item in &account.ledger.items {
        write_notice(item, out);
    }
}

fn write_notice(item: &Item, out: &mut Vec<u8>) {
    let kind = match item.kind {
        Kind::Interest => 1,
        Kind::Price => 2,
    };
    frames::encode(&[kind], out);
    write_date(item.obligation, out);
    write_date(item.due, out);
    frames::encode(&item.unpaid.to_be_bytes(), out);
    out.push(b'\n');
}

/// Eight digits, yyyymmdd.
fn write_date(day: u32, out: &mut Vec<u8>) {
    let date = calendar::date_of(day).expect("a due day is at most the last day");
    let digits = date.year * 10_000 + date.month * 100 + date.day;
    out.extend_from_slice(format!("{digits:08}").as_bytes());
}
