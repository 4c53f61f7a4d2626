//! Writes generated inputs.

use std::fs;
use std::io::{self, Write};
use std::path::Path;
use std::process::ExitCode;

use reference::{benchmarks, generator, households};

const USAGE: &str =
    "usage: lives --long N [--seed S]                 one life of N lines, to standard output
       lives --households N --dir D [--seed S]  N files of twenty years
       lives --small N --dir D [--seed S]       N files of about twenty lines
       lives --any N --dir D [--seed S]         the first N lives that compare uses,
                                                each with its file `closed`, if any";

/// The value after an option.
fn value(words: &[String], name: &str) -> Option<String> {
    let place = words.iter().position(|word| word == name)?;
    words.get(place + 1).cloned()
}

fn number(words: &[String], name: &str) -> Option<u64> {
    value(words, name)?.parse().ok()
}

fn write_long(lines: u64, seed: u64) -> io::Result<()> {
    io::stdout().lock().write_all(&benchmarks::long_life(lines, seed))
}

fn write_files(count: u64, folder: &str, life: impl Fn(u64) -> Vec<u8>) -> io::Result<()> {
    fs::create_dir_all(folder)?;
    for index in 0..count {
        write_file(folder, index, "txt", &life(index))?;
    }
    Ok(())
}

fn write_lives(count: u64, folder: &str, seed: u64) -> io::Result<()> {
    fs::create_dir_all(folder)?;
    for index in 0..count {
        let life = generator::life(seed, index);
        write_file(folder, index, "txt", &life.input)?;
        if let Some(file) = life.closed.file() {
            write_file(folder, index, "closed", file)?;
        }
    }
    Ok(())
}

fn write_file(folder: &str, index: u64, end: &str, bytes: &[u8]) -> io::Result<()> {
    fs::write(Path::new(folder).join(format!("{index:07}.{end}")), bytes)
}

fn run(words: &[String]) -> Option<io::Result<()>> {
    let seed = number(words, "--seed").unwrap_or(1);
    if let Some(lines) = number(words, "--long") {
        return Some(write_long(lines, seed));
    }
    let folder = value(words, "--dir")?;
    if let Some(count) = number(words, "--households") {
        let household = |index| households::household(generator::seed_of(seed, index));
        return Some(write_files(count, &folder, household));
    }
    if let Some(count) = number(words, "--small") {
        let small = |index| benchmarks::small_life(generator::seed_of(seed, index));
        return Some(write_files(count, &folder, small));
    }
    let count = number(words, "--any")?;
    Some(write_lives(count, &folder, seed))
}

fn main() -> ExitCode {
    let words: Vec<String> = std::env::args().skip(1).collect();
    match run(&words) {
        Some(Ok(())) => ExitCode::SUCCESS,
        Some(Err(error)) => {
            eprintln!("{error}");
            ExitCode::FAILURE
        }
        None => {
            eprintln!("{USAGE}");
            ExitCode::from(2)
        }
    }
}
