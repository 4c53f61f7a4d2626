//! The closed days that come with the calls: the bounds of a list (number
//! 14), the due day, and the file `closed`.

use std::fs::File;
use std::io::{self, ErrorKind, Read};

use crate::calendar::LAST_DAY;
use crate::frames;

/// Most entries of a list.
pub const MOST_CLOSED: usize = 400;
/// Days from obligation day to the first day that may be due day (H).
pub const TERM: u32 = 30;
/// The file's name.
pub const FILE: &str = "closed";
/// Bytes of a file's line, its LF included.
const LINE: usize = 5;

// ---- The list ----

/// Strictly rising, at most 400 entries, each at most the last day.
pub fn allowed(list: &[u16]) -> bool {
    list.len() <= MOST_CLOSED
        && list.windows(2).all(|pair| pair[0] < pair[1])
        && list.iter().all(|&day| u32::from(day) <= LAST_DAY)
}

/// The first day from obligation day + 30 on that isn't listed.
pub fn due_day(obligation: u32, closed: &[u16]) -> u32 {
    let mut day = obligation + TERM;
    while is_listed(day, closed) {
        day += 1;
    }
    day
}

/// Whether a day stands in a list within bounds, which rises.
pub fn is_listed(day: u32, closed: &[u16]) -> bool {
    closed.binary_search_by_key(&day, |&listed| u32::from(listed)).is_ok()
}

// ---- The file ----

/// A list that breaks the bounds, in place of a file of another form.
const BROKEN: [u16; 2] = [0, 0];

/// The list in a file: four lower-case hexadecimal digits a line. A file of
/// another form counts as a list that breaks the bounds.
pub fn list_of(file: &[u8]) -> Vec<u16> {
    let days: Option<Vec<u16>> = frames::lines(file).map(day_of).collect();
    days.unwrap_or(BROKEN.to_vec())
}

fn day_of(line: &[u8]) -> Option<u16> {
    let bytes = frames::decode(line)?;
    Some(u16::from_be_bytes(bytes.try_into().ok()?))
}

/// The file of a list, each line with its LF.
pub fn file_of(list: &[u16]) -> Vec<u8> {
    let mut file = Vec::with_capacity(LINE * list.len());
    for day in list {
        frames::encode(&day.to_be_bytes(), &mut file);
        file.push(b'\n');
    }
    file
}

/// The list in the working directory's file; empty if there is no such file.
pub fn read() -> io::Result<Vec<u16>> {
    let file = match File::open(FILE) {
        Err(error) if error.kind() == ErrorKind::NotFound => return Ok(Vec::new()),
        opened => opened?,
    };
    // A byte more than a list within bounds can have is enough to tell.
    let mut bytes = Vec::new();
    file.take((LINE * MOST_CLOSED + 1) as u64).read_to_end(&mut bytes)?;
    Ok(list_of(&bytes))
}

// ---- What comes with a life ----

/// The file of a life with the list in it, or no file and the empty list.
#[derive(Clone, Debug, Default, PartialEq, Eq)]
pub struct Closed {
    file: Option<Vec<u8>>,
    list: Vec<u16>,
}

impl Closed {
    /// No file.
    pub fn none() -> Closed {
        Closed::default()
    }

    /// A file of any bytes.
    pub fn in_file(file: Vec<u8>) -> Closed {
        Closed { list: list_of(&file), file: Some(file) }
    }

    /// A list, within bounds or not, and its file.
    pub fn of(list: &[u16]) -> Closed {
        Closed { file: Some(file_of(list)), list: list.to_vec() }
    }

    pub fn file(&self) -> Option<&[u8]> {
        self.file.as_deref()
    }

    pub fn list(&self) -> &[u16] {
        &self.list
    }
}
