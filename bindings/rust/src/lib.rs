//! A household's file in, what `bill` or `notice` writes out.
//!
//! Any bytes are an input. A line that is no frame is answered with number 40.
//!
//! The functions that end in `with` take a list of closed days, on which no item is due: day numbers, strictly rising,
//! at most 400, each at most 36,524. By a list that breaks these bounds every line is answered with number 14, and
//! there are no notices. The others close no day.

use std::error::Error;
use std::fmt;

extern "C" {
    fn breccianest_bill_closed(
        input: *const u8,
        input_len: usize,
        closed: *const u16,
        closed_len: usize,
        output: *mut u8,
        output_len: usize,
    ) -> usize;
    fn breccianest_notice_closed(
        input: *const u8,
        input_len: usize,
        closed: *const u16,
        closed_len: usize,
        output: *mut u8,
        output_len: usize,
    ) -> usize;
}

/// The longest answer of a line, its LF among it.
const LONGEST_ANSWER: usize = 117;

type Function = unsafe extern "C" fn(*const u8, usize, *const u16, usize, *mut u8, usize) -> usize;

/// The output buffer is too small. Nothing was written to it.
#[derive(Clone, Copy, Debug, PartialEq, Eq)]
pub struct TooSmall {
    /// The size of the whole output; `usize::MAX` if the input is longer than 2^48 bytes.
    pub needed: usize,
}

impl fmt::Display for TooSmall {
    fn fmt(&self, f: &mut fmt::Formatter<'_>) -> fmt::Result {
        write!(f, "the output needs {} bytes", self.needed)
    }
}

impl Error for TooSmall {}

/// A frame for each line of the input.
///
/// # Panics
///
/// If the input is longer than 2^48 bytes.
pub fn bill(input: &[u8]) -> Vec<u8> {
    bill_with(input, &[])
}

/// A frame for each line of the input, by a list of closed days.
///
/// # Panics
///
/// If the input is longer than 2^48 bytes.
pub fn bill_with(input: &[u8], closed: &[u16]) -> Vec<u8> {
    // With room for the longest answers, one for each line, the input is worked once.
    let ended = input.iter().filter(|&&character| character == b'\n').count();
    whole(breccianest_bill_closed, input, closed, LONGEST_ANSWER.saturating_mul(ended + 1))
}

/// A line for each item that is open at the end of the input, oldest first.
///
/// # Panics
///
/// If the input is longer than 2^48 bytes.
pub fn notice(input: &[u8]) -> Vec<u8> {
    notice_with(input, &[])
}

/// A line for each item that is open at the end of the input, oldest first, by a list of closed days.
///
/// # Panics
///
/// If the input is longer than 2^48 bytes.
pub fn notice_with(input: &[u8], closed: &[u16]) -> Vec<u8> {
    // At most 72 items are open, each a line of 35 bytes.
    whole(breccianest_notice_closed, input, closed, 72 * 35)
}

/// Writes `bill`'s output to the front of a buffer and gives its size.
pub fn bill_into(input: &[u8], output: &mut [u8]) -> Result<usize, TooSmall> {
    bill_into_with(input, &[], output)
}

/// Writes `bill_with`'s output to the front of a buffer and gives its size.
pub fn bill_into_with(input: &[u8], closed: &[u16], output: &mut [u8]) -> Result<usize, TooSmall> {
    into(breccianest_bill_closed, input, closed, output)
}

/// Writes `notice`'s output to the front of a buffer and gives its size.
pub fn notice_into(input: &[u8], output: &mut [u8]) -> Result<usize, TooSmall> {
    notice_into_with(input, &[], output)
}

/// Writes `notice_with`'s output to the front of a buffer and gives its size.
pub fn notice_into_with(
    input: &[u8],
    closed: &[u16],
    output: &mut [u8],
) -> Result<usize, TooSmall> {
    into(breccianest_notice_closed, input, closed, output)
}

fn into(
    function: Function,
    input: &[u8],
    closed: &[u16],
    output: &mut [u8],
) -> Result<usize, TooSmall> {
    // SAFETY: the slices are alive during the call, have the lengths given, and the output overlaps
    // neither of the others; the function reads those two and writes the output.
    let needed = unsafe {
        function(
            input.as_ptr(),
            input.len(),
            closed.as_ptr(),
            closed.len(),
            output.as_mut_ptr(),
            output.len(),
        )
    };
    if needed <= output.len() {
        Ok(needed)
    } else {
        Err(TooSmall { needed })
    }
}

/// The output in a vector, which has room for any output that the input may have.
fn whole(function: Function, input: &[u8], closed: &[u16], room: usize) -> Vec<u8> {
    let mut output = vec![0; room];
    let size = into(function, input, closed, &mut output).expect("an input of at most 2^48 bytes");
    output.truncate(size);
    output
}

#[cfg(test)]
mod tests {
    use super::*;

    /// Document 01, "Output".
    const INPUT: &[u8] = b"0100000000006404\n02001d00000078000144ba000124f8\n09002800001388\n";
    const OUTPUT: &[u8] = b"\
000000000000000000000000000000000000000000000000000000000000
00000000000100000014000012f2000000000000000000000000000012f200000000
000000000000000000000000000000000000000000000000000000000096
";
    /// Document 01, "Notices": after the first two lines.
    const TWO_LINES: &[u8] = b"0100000000006404\n02001d00000078000144ba000124f8\n";
    const NOTICE: &[u8] = b"02200001302000022900000000000012f2\n";
    /// The same item, obligation day 29 and due day 59, where days 59 and 60 are closed: due on day 61, 2 March 2000.
    const MOVED: &[u8] = b"02200001302000030200000000000012f2\n";
    const BROKEN: &[u8] = b"0e0000000000000000000000000000000000000000000000000000000000\n";
    const NO_FRAME: &[u8] = b"280000000000000000000000000000000000000000000000000000000000\n";

    #[test]
    fn example_of_output() {
        assert_eq!(bill(INPUT), OUTPUT);
        assert_eq!(bill(INPUT.strip_suffix(b"\n").unwrap()), OUTPUT);
    }

    #[test]
    fn example_of_notices() {
        assert_eq!(notice(TWO_LINES), NOTICE);
        assert_eq!(notice(INPUT), b"");
    }

    #[test]
    fn closed_days_move_a_due_day() {
        assert_eq!(notice_with(TWO_LINES, &[]), NOTICE);
        assert_eq!(notice_with(TWO_LINES, &[58, 60]), NOTICE);
        assert_eq!(notice_with(TWO_LINES, &[59, 60]), MOVED);
        assert_eq!(bill_with(INPUT, &[59, 60]), OUTPUT);
    }

    #[test]
    fn a_list_out_of_bounds_answers_14() {
        let long: Vec<u16> = (0..401).collect();
        for closed in [&[60, 59][..], &[59, 59], &[36_525], &long] {
            assert_eq!(bill_with(INPUT, closed), BROKEN.repeat(3));
            assert_eq!(bill_with(b"\n\n", closed), BROKEN.repeat(2));
            assert_eq!(notice_with(TWO_LINES, closed), b"");
        }
        assert_eq!(bill_with(INPUT, &long[..400]), OUTPUT);
        assert_eq!(bill_with(INPUT, &[36_524]), OUTPUT);
    }

    #[test]
    fn no_input_gives_no_output() {
        assert_eq!(bill(b""), b"");
        assert_eq!(notice(b""), b"");
        assert_eq!(bill_into(b"", &mut []), Ok(0));
        assert_eq!(notice_into(b"", &mut []), Ok(0));
        assert_eq!(bill_into_with(b"", &[1, 1], &mut []), Ok(0));
        assert_eq!(notice_into_with(b"", &[1, 1], &mut []), Ok(0));
    }

    #[test]
    fn a_small_buffer_is_left_as_it_was() {
        for room in 0..OUTPUT.len() {
            let mut output = vec![0xaa; room];
            assert_eq!(bill_into(INPUT, &mut output), Err(TooSmall { needed: OUTPUT.len() }));
            assert!(output.iter().all(|&byte| byte == 0xaa));
        }
        for room in 0..NOTICE.len() {
            let mut output = vec![0xaa; room];
            assert_eq!(notice_into(TWO_LINES, &mut output), Err(TooSmall { needed: NOTICE.len() }));
            let needed = MOVED.len();
            assert_eq!(
                notice_into_with(TWO_LINES, &[59, 60], &mut output),
                Err(TooSmall { needed })
            );
            assert!(output.iter().all(|&byte| byte == 0xaa));
        }
    }

    #[test]
    fn a_large_buffer_keeps_what_is_behind() {
        for more in 0..3 {
            let mut output = vec![0xaa; OUTPUT.len() + more];
            assert_eq!(bill_into(INPUT, &mut output), Ok(OUTPUT.len()));
            assert_eq!(&output[..OUTPUT.len()], OUTPUT);
            assert!(output[OUTPUT.len()..].iter().all(|&byte| byte == 0xaa));
        }
    }

    #[test]
    fn empty_lines() {
        assert_eq!(bill(&[b'\n'; 1000]), NO_FRAME.repeat(1000));
    }

    #[test]
    fn any_bytes_are_an_input() {
        let bytes: Vec<u8> = (0..=255).filter(|&byte| byte != b'\n').collect();
        assert_eq!(bill(&bytes), NO_FRAME);
        assert_eq!(notice(&bytes), b"");
    }

    #[test]
    fn threads_do_not_disturb_each_other() {
        std::thread::scope(|scope| {
            for _ in 0..4 {
                scope.spawn(|| (0..1000).for_each(|_| assert_eq!(bill(INPUT), OUTPUT)));
            }
        });
    }
}
