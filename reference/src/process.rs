//! Two programs as the other side, started anew for each life in a folder of
//! their own, which has the life's file `closed`, or none.

use std::io::{self, Read, Write};
use std::path::{Path, PathBuf};
use std::process::{self, Child, ChildStdin, Command, Stdio};
use std::sync::atomic::{AtomicU32, Ordering};
use std::{env, fs, thread};

use crate::check::Other;
use crate::closed::{self, Closed};

pub struct Programs {
    bill: PathBuf,
    notice: PathBuf,
    folder: Folder,
}

impl Programs {
    pub fn new(bill: &Path, notice: &Path) -> io::Result<Programs> {
        let (bill, notice) = (fs::canonicalize(bill)?, fs::canonicalize(notice)?);
        Ok(Programs { bill, notice, folder: Folder::new()? })
    }
}

impl Other for Programs {
    fn bill(&mut self, input: &[u8], closed: &Closed, out: &mut Vec<u8>) {
        self.folder.put(closed);
        run(&self.bill, &self.folder.path, input, out);
    }

    fn notice(&mut self, input: &[u8], closed: &Closed, out: &mut Vec<u8>) {
        self.folder.put(closed);
        run(&self.notice, &self.folder.path, input, out);
    }
}

// ---- The folder ----

/// A folder that nothing else uses; it goes when it is dropped.
pub struct Folder {
    pub path: PathBuf,
}

impl Folder {
    pub fn new() -> io::Result<Folder> {
        static MADE: AtomicU32 = AtomicU32::new(0);
        loop {
            let made = MADE.fetch_add(1, Ordering::SeqCst);
            let path = env::temp_dir().join(format!("closed_{}_{made}", process::id()));
            match fs::create_dir(&path) {
                Err(error) if error.kind() == io::ErrorKind::AlreadyExists => {}
                result => return result.map(|()| Folder { path }),
            }
        }
    }

    /// Puts the file of a life there, or none.
    pub fn put(&self, closed: &Closed) {
        let file = self.path.join(closed::FILE);
        let put = match closed.file() {
            Some(bytes) => fs::write(file, bytes),
            None => remove(&file),
        };
        put.expect("a folder of our own can be written");
    }
}

impl Drop for Folder {
    fn drop(&mut self) {
        let _ = fs::remove_dir_all(&self.path);
    }
}

/// Removes a file that may not be there.
fn remove(file: &Path) -> io::Result<()> {
    match fs::remove_file(file) {
        Err(error) if error.kind() == io::ErrorKind::NotFound => Ok(()),
        result => result,
    }
}

// ---- A run ----

/// What fits a pipe before its reader reads.
const SURELY_FITS: usize = 4_096;

/// Feeds a program and gathers its output; a bad end shows in the output.
fn run(program: &Path, folder: &Path, input: &[u8], out: &mut Vec<u8>) {
    let mut child = start(program, folder);
    let stdin = child.stdin.take().expect("piped");
    if input.len() <= SURELY_FITS {
        feed(stdin, input);
        gather(&mut child, out);
    } else {
        // Fed from a second thread, so that neither pipe blocks the other.
        thread::scope(|scope| {
            scope.spawn(move || feed(stdin, input));
            gather(&mut child, out);
        });
    }
    let status = child.wait().expect("a started program ends");
    if !status.success() {
        out.extend_from_slice(format!("({status})\n").as_bytes());
    }
}

fn start(program: &Path, folder: &Path) -> Child {
    let mut command = Command::new(program);
    command.current_dir(folder).stdin(Stdio::piped()).stdout(Stdio::piped());
    let started = command.spawn();
    started.unwrap_or_else(|error| panic!("cannot start {}: {error}", program.display()))
}

/// A program that stops reading early shows by what it writes.
fn feed(mut stdin: ChildStdin, input: &[u8]) {
    let _ = stdin.write_all(input);
}

fn gather(child: &mut Child, out: &mut Vec<u8>) {
    let mut stdout = child.stdout.take().expect("piped");
    stdout.read_to_end(out).expect("a program's output can be read");
}
