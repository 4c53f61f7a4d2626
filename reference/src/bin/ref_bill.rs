//! `bill`: one answer frame for each line of standard input, with the closed
//! days of the file `closed`.

use std::io::{self, Read, Write};

use reference::closed;
use reference::rule::Rule;

fn main() -> io::Result<()> {
    let closed = closed::read()?;
    let mut input = Vec::new();
    io::stdin().lock().read_to_end(&mut input)?;
    let output = reference::bill(&input, &closed, Rule::built());
    io::stdout().lock().write_all(&output)
}
