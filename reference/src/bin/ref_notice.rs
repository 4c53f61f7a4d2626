//! `notice`: a line for each item open after the lines of standard input, with
//! the closed days of the file `closed`.

use std::io::{self, Read, Write};

use reference::closed;
use reference::rule::Rule;

fn main() -> io::Result<()> {
    let closed = closed::read()?;
    let mut input = Vec::new();
    io::stdin().lock().read_to_end(&mut input)?;
    let output = reference::notice(&input, &closed, Rule::built());
    io::stdout().lock().write_all(&output)
}
