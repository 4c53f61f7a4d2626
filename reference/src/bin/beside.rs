//! Works files with the linked library and with the fast build, in one process.

use std::hint::black_box;
use std::io::{self, Error};
use std::path::PathBuf;
use std::process::ExitCode;
use std::time::{Duration, Instant};
use std::{env, fs};

use reference::{closed, fast, frames, linked};

const USAGE: &str = "usage: beside [--closed FILE] [--rounds R] [--times T] PATH...
       beside --only library|tuned [--closed FILE] [--times T] PATH...
  Nanoseconds of a pass over each path, best and median of R rounds (30) in
  which paths and sides take turns, once both sides have given the same bytes;
  or one pass of one side over all paths, for a profiler.
  PATH           a file, or a folder: a pass takes all its files NAME.txt
  --closed FILE  the closed days, as in a file `closed`; none without it, by
                 the functions that take no list
  --times T      a pass works each file so many times (1), from an empty
                 account";

/// Bills an input into a buffer, with no day closed or by a list of closed
/// days; both give the output's length.
struct Side {
    name: &'static str,
    bill: fn(&[u8], &mut [u8]) -> usize,
    bill_closed: fn(&[u8], &[u16], &mut [u8]) -> usize,
}

const SIDES: [Side; 2] = [
    Side { name: "library", bill: linked::bill_into, bill_closed: linked::bill_closed_into },
    Side { name: "tuned", bill: fast::bill_into, bill_closed: fast::bill_closed_into },
];

struct Options {
    only: Option<&'static Side>,
    closed: Option<PathBuf>,
    rounds: usize,
    times: usize,
    paths: Vec<PathBuf>,
}

fn options() -> Option<Options> {
    let mut options = Options { only: None, closed: None, rounds: 30, times: 1, paths: Vec::new() };
    let mut words = env::args().skip(1);
    while let Some(word) = words.next() {
        match word.as_str() {
            "--only" => options.only = Some(side(&words.next()?)?),
            "--closed" => options.closed = Some(words.next()?.into()),
            "--rounds" => {
                options.rounds = words.next()?.parse().ok().filter(|&rounds| rounds > 0)?
            }
            "--times" => options.times = words.next()?.parse().ok()?,
            _ => options.paths.push(word.into()),
        }
    }
    (!options.paths.is_empty()).then_some(options)
}

fn side(name: &str) -> Option<&'static Side> {
    SIDES.iter().find(|side| side.name == name)
}

// ---- Files ----

/// The inputs of one path.
type Inputs = Vec<Vec<u8>>;

fn inputs(path: &PathBuf) -> io::Result<Inputs> {
    if !path.is_dir() {
        return Ok(vec![fs::read(path)?]);
    }
    let entries = fs::read_dir(path)?.map(|entry| entry.map(|entry| entry.path()));
    let mut files = entries.collect::<io::Result<Vec<_>>>()?;
    files.retain(|file| file.extension().is_some_and(|end| end == "txt"));
    files.sort();
    files.iter().map(fs::read).collect()
}

/// What the sides work: the inputs of each path, and the list of closed days
/// if there is one.
struct Work {
    paths: Vec<Inputs>,
    closed: Option<Vec<u16>>,
}

impl Work {
    fn read(options: &Options) -> io::Result<Work> {
        let file = options.closed.as_ref().map(fs::read).transpose()?;
        let paths = options.paths.iter().map(inputs).collect::<io::Result<_>>()?;
        Ok(Work { paths, closed: file.map(|file| closed::list_of(&file)) })
    }

    /// Room for the longest output that any of the inputs could have.
    fn room(&self) -> Vec<u8> {
        let longest = self.paths.iter().flatten().map(Vec::len).max().unwrap_or(0);
        vec![0; (longest + 1) * fast::LONGEST_ANSWER]
    }

    fn bill(&self, side: &Side, input: &[u8], room: &mut [u8]) -> usize {
        match &self.closed {
            None => (side.bill)(input, room),
            Some(list) => (side.bill_closed)(input, list, room),
        }
    }

    // ---- Passes ----

    fn pass(&self, side: &Side, inputs: &Inputs, times: usize, room: &mut [u8]) {
        for _ in 0..times {
            for input in inputs {
                black_box(self.bill(side, black_box(input), room));
            }
        }
    }

    /// Both sides' outputs must be the same.
    fn check_equal(&self) -> io::Result<()> {
        let mut rooms = SIDES.map(|_| self.room());
        for input in self.paths.iter().flatten() {
            let [first, second] = [0, 1].map(|i| self.bill(&SIDES[i], input, &mut rooms[i]));
            if first > rooms[0].len() || rooms[0][..first] != rooms[1][..second] {
                return Err(Error::other("the outputs differ"));
            }
        }
        Ok(())
    }

    /// The time of each round for both sides, shortest first, by path.
    fn times(&self, rounds: usize, times: usize) -> Vec<[Vec<Duration>; 2]> {
        let mut room = self.room();
        let mut found = vec![SIDES.map(|_| Vec::new()); self.paths.len()];
        for _ in 0..rounds {
            for (inputs, found) in self.paths.iter().zip(&mut found) {
                for (side, found) in SIDES.iter().zip(found) {
                    let start = Instant::now();
                    self.pass(side, inputs, times, &mut room);
                    found.push(start.elapsed());
                }
            }
        }
        found.iter_mut().flatten().for_each(|times| times.sort());
        found
    }
}

fn report(options: &Options, work: &Work) {
    println!("path\tside\tlines\tbest\tmedian\tbest a line");
    let found = work.times(options.rounds, options.times);
    for ((path, inputs), found) in options.paths.iter().zip(&work.paths).zip(found) {
        let lines: usize = inputs.iter().map(|input| frames::lines(input).count()).sum();
        let (path, lines) = (path.display(), lines * options.times);
        for (side, times) in SIDES.iter().zip(found) {
            let [best, median] = [times[0], times[times.len() / 2]].map(|time| time.as_nanos());
            let (side, each) = (side.name, best as f64 / lines as f64);
            println!("{path}\t{side}\t{lines}\t{best}\t{median}\t{each:.1}");
        }
    }
}

fn run(options: &Options) -> io::Result<()> {
    let work = Work::read(options)?;
    if let Some(side) = options.only {
        let mut room = work.room();
        work.paths.iter().for_each(|inputs| work.pass(side, inputs, options.times, &mut room));
        return Ok(());
    }
    work.check_equal()?;
    report(options, &work);
    Ok(())
}

fn main() -> ExitCode {
    let Some(options) = options() else {
        eprintln!("{USAGE}");
        return ExitCode::from(2);
    };
    match run(&options) {
        Ok(()) => ExitCode::SUCCESS,
        Err(error) => {
            eprintln!("{error}");
            ExitCode::FAILURE
        }
    }
}
