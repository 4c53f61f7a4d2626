//! Bills a file, or standard input if none is named: prints what `bill`
//! writes, then what `notice` writes. Words behind the file's name are closed
//! days.

use std::io::{self, Read, Write};
use std::{env, fs};

fn main() -> io::Result<()> {
    let input = input()?;
    let closed = closed_days()?;
    let mut output = io::stdout().lock();
    output.write_all(&breccianest::bill_with(&input, &closed))?;
    output.write_all(&breccianest::notice_with(&input, &closed))?;
    output.flush()
}

fn closed_days() -> io::Result<Vec<u16>> {
    env::args().skip(2).map(|word| word.parse().map_err(|_| io::Error::other("no day"))).collect()
}

fn input() -> io::Result<Vec<u8>> {
    if let Some(file) = env::args_os().nth(1) {
        return fs::read(file);
    }
    let mut input = Vec::new();
    io::stdin().lock().read_to_end(&mut input)?;
    Ok(input)
}
