//! A linked static library as the other side. The library gives the bytes
//! of the whole output; if more than the buffer holds, it wrote nothing. Lives
//! without a list go through the functions that take none.

use crate::check::Other;
use crate::closed::Closed;

extern "C" {
    fn breccianest_bill(
        input: *const u8,
        input_len: usize,
        output: *mut u8,
        output_len: usize,
    ) -> usize;
    fn breccianest_notice(
        input: *const u8,
        input_len: usize,
        output: *mut u8,
        output_len: usize,
    ) -> usize;
    fn breccianest_bill_closed(
        input: *const u8,
        input_len: usize,
        closed: *const u16,
        closed_len: usize,
        output: *mut u8,
        output_len: usize,
    ) -> usize;
    fn breccianest_notice_closed(
        input: *const u8,
        input_len: usize,
        closed: *const u16,
        closed_len: usize,
        output: *mut u8,
        output_len: usize,
    ) -> usize;
}

type Plain = unsafe extern "C" fn(*const u8, usize, *mut u8, usize) -> usize;
type WithList = unsafe extern "C" fn(*const u8, usize, *const u16, usize, *mut u8, usize) -> usize;

/// Bills a whole input into a buffer; gives the output's length.
pub fn bill_into(input: &[u8], output: &mut [u8]) -> usize {
    call(breccianest_bill, input, output)
}

/// The same with closed days.
pub fn bill_closed_into(input: &[u8], closed: &[u16], output: &mut [u8]) -> usize {
    call_closed(breccianest_bill_closed, input, closed, output)
}

fn call(function: Plain, input: &[u8], output: &mut [u8]) -> usize {
    // Both buffers live through the call and have the lengths given.
    unsafe { function(input.as_ptr(), input.len(), output.as_mut_ptr(), output.len()) }
}

fn call_closed(function: WithList, input: &[u8], closed: &[u16], output: &mut [u8]) -> usize {
    let (list, days) = (closed.as_ptr(), closed.len());
    // All three buffers live through the call and have the lengths given.
    unsafe { function(input.as_ptr(), input.len(), list, days, output.as_mut_ptr(), output.len()) }
}

#[derive(Default)]
pub struct Linked;

impl Other for Linked {
    fn bill(&mut self, input: &[u8], closed: &Closed, out: &mut Vec<u8>) {
        work(breccianest_bill, breccianest_bill_closed, input, closed, out);
    }

    fn notice(&mut self, input: &[u8], closed: &Closed, out: &mut Vec<u8>) {
        work(breccianest_notice, breccianest_notice_closed, input, closed, out);
    }
}

fn work(plain: Plain, with_list: WithList, input: &[u8], closed: &Closed, out: &mut Vec<u8>) {
    out.resize(4_096 + 4 * input.len(), 0);
    match closed.file() {
        None => fill(|room| call(plain, input, room), out),
        Some(_) => fill(|room| call_closed(with_list, input, closed.list(), room), out),
    }
}

/// Calls again with a larger buffer when the first is too small.
fn fill(function: impl Fn(&mut [u8]) -> usize, out: &mut Vec<u8>) {
    loop {
        let whole = function(out);
        if whole <= out.len() {
            out.truncate(whole);
            return;
        }
        out.resize(whole, 0);
    }
}
