//! `bill` tuned for speed, with the closed days of the file `closed`.

use std::fs::File;
use std::io;
use std::os::fd::AsFd;

use reference::{closed, fast};

fn main() -> io::Result<()> {
    let closed = closed::read()?;
    let mut input = File::from(io::stdin().as_fd().try_clone_to_owned()?);
    let output = File::from(io::stdout().as_fd().try_clone_to_owned()?);
    fast::run(&mut input, &closed, output)
}
