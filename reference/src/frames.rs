//! Lines in, answer frames out ("Input", "Output").

use crate::calls::{Answer, Call, What};
use crate::tariff::Fuel;

/// The lines of an input: each ends at LF, the last may lack it.
pub fn lines(input: &[u8]) -> impl Iterator<Item = &[u8]> {
    let body = input.strip_suffix(b"\n").unwrap_or(input);
    let count = if input.is_empty() { 0 } else { usize::MAX };
    body.split(|&byte| byte == b'\n').take(count)
}

/// The bytes of a line of lower-case hexadecimal.
pub fn decode(line: &[u8]) -> Option<Vec<u8>> {
    if !line.len().is_multiple_of(2) {
        return None;
    }
    line.chunks(2).map(|pair| Some(nibble(pair[0])? * 16 + nibble(pair[1])?)).collect()
}

fn nibble(character: u8) -> Option<u8> {
    match character {
        b'0'..=b'9' => Some(character - b'0'),
        b'a'..=b'f' => Some(character - b'a' + 10),
        _ => None,
    }
}

/// Bytes of each kind of frame, 01 to 0a.
pub const LENGTHS: [usize; 10] = [8, 15, 11, 11, 12, 15, 8, 15, 7, 3];

/// The call in a line; none if the line is no frame (number 40).
pub fn parse(line: &[u8]) -> Option<Call> {
    let frame = decode(line)?;
    let kind = *frame.first()?;
    let place = usize::from(kind).checked_sub(1)?;
    if *LENGTHS.get(place)? != frame.len() {
        return None;
    }
    Some(Call { day: number(&frame, 1, 2), what: what(kind, &frame) })
}

fn number(frame: &[u8], from: usize, bytes: usize) -> u32 {
    frame[from..from + bytes].iter().fold(0, |number, &byte| number << 8 | u32::from(byte))
}

fn fuel(frame: &[u8], from: usize) -> Fuel {
    Fuel { lng: number(frame, from, 4), propane: number(frame, from + 4, 4) }
}

/// The fields after the day of a frame of the right length.
fn what(kind: u8, f: &[u8]) -> What {
    match kind {
        0x01 => What::Opening { reading: number(f, 3, 4), digits: number(f, 7, 1) },
        0x02 => What::Reading { reading: number(f, 3, 4), fuel: fuel(f, 7) },
        0x03 => What::Missed { fuel: fuel(f, 3) },
        0x04 => What::Absent { fuel: fuel(f, 3) },
        0x05 => {
            What::Change { old: number(f, 3, 4), new: number(f, 7, 4), digits: number(f, 11, 1) }
        }
        0x06 => What::Stop { reading: number(f, 3, 4), fuel: fuel(f, 7) },
        0x07 => What::Resumption { reading: number(f, 3, 4), digits: number(f, 7, 1) },
        0x08 => What::Cancellation { reading: number(f, 3, 4), fuel: fuel(f, 7) },
        0x09 => What::Payment { yen: number(f, 3, 4) },
        _ => What::CancelStopped,
    }
}

/// The line of a call, without LF.
pub fn line_of(call: &Call) -> Vec<u8> {
    let (kind, fields) = fields_of(call);
    let mut frame = vec![kind];
    frame.extend_from_slice(&(call.day as u16).to_be_bytes());
    frame.extend_from_slice(&fields);
    let mut line = Vec::with_capacity(frame.len() * 2);
    encode(&frame, &mut line);
    line
}

fn joined(numbers: &[u32]) -> Vec<u8> {
    numbers.iter().flat_map(|number| number.to_be_bytes()).collect()
}

fn with_digits(numbers: &[u32], digits: u32) -> Vec<u8> {
    let mut fields = joined(numbers);
    fields.push(digits as u8);
    fields
}

fn fields_of(call: &Call) -> (u8, Vec<u8>) {
    match call.what {
        What::Opening { reading, digits } => (1, with_digits(&[reading], digits)),
        What::Reading { reading, fuel } => (2, joined(&[reading, fuel.lng, fuel.propane])),
        What::Missed { fuel } => (3, joined(&[fuel.lng, fuel.propane])),
        What::Absent { fuel } => (4, joined(&[fuel.lng, fuel.propane])),
        What::Change { old, new, digits } => (5, with_digits(&[old, new], digits)),
        What::Stop { reading, fuel } => (6, joined(&[reading, fuel.lng, fuel.propane])),
        What::Resumption { reading, digits } => (7, with_digits(&[reading], digits)),
        What::Cancellation { reading, fuel } => (8, joined(&[reading, fuel.lng, fuel.propane])),
        What::Payment { yen } => (9, joined(&[yen])),
        What::CancelStopped => (10, Vec::new()),
    }
}

/// Lower-case hexadecimal of some bytes.
pub fn encode(bytes: &[u8], out: &mut Vec<u8>) {
    const HEX: &[u8; 16] = b"0123456789abcdef";
    for byte in bytes {
        out.push(HEX[usize::from(byte >> 4)]);
        out.push(HEX[usize::from(byte & 15)]);
    }
}

/// Writes an answer's frame and LF.
pub fn write_answer(answer: &Answer, out: &mut Vec<u8>) {
    encode(&[answer.number], out);
    encode(&answer.estimated.to_be_bytes(), out);
    encode(&[answer.finals.len() as u8], out);
    for volume in &answer.finals {
        encode(&volume.to_be_bytes(), out);
    }
    encode(&(answer.net as i32).to_be_bytes(), out);
    encode(&answer.interest.to_be_bytes(), out);
    encode(&answer.unpaid.to_be_bytes(), out);
    encode(&(answer.credit as u32).to_be_bytes(), out);
    out.push(b'\n');
}
