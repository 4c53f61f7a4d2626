//! Lines, frames and notices as the programs read and write them.
#![cfg_attr(feature = "wrong-rule", allow(unused))]

use std::fs;
use std::io::Write;
use std::process::{Command, Output, Stdio};

use reference::closed::Closed;
use reference::frames::{line_of, lines, parse};
use reference::process::Folder;
use reference::rule::Rule;

const INPUT: &str = "0100000000006404\n02001d00000078000144ba000124f8\n09002800001388\n";

const OUTPUT: &str = "\
000000000000000000000000000000000000000000000000000000000000
00000000000100000014000012f2000000000000000000000000000012f200000000
000000000000000000000000000000000000000000000000000000000096
";

const NO_FRAME: &str = "280000000000000000000000000000000000000000000000000000000000\n";
const BAD_LIST: &str = "0e0000000000000000000000000000000000000000000000000000000000\n";

const REF_BILL: &str = env!("CARGO_BIN_EXE_ref_bill");
const FAST_BILL: &str = env!("CARGO_BIN_EXE_fast_bill");
const REF_NOTICE: &str = env!("CARGO_BIN_EXE_ref_notice");

fn bill(input: &[u8]) -> String {
    String::from_utf8(reference::bill(input, &[], Rule::Right)).unwrap()
}

fn notice(input: &[u8]) -> String {
    String::from_utf8(reference::notice(input, &[], Rule::Right)).unwrap()
}

/// A run in a folder. A program may end without reading its input.
fn run(path: &str, folder: &Folder, input: &str) -> Output {
    let mut command = Command::new(path);
    command.current_dir(&folder.path);
    command.stdin(Stdio::piped()).stdout(Stdio::piped()).stderr(Stdio::piped());
    let mut child = command.spawn().unwrap();
    let _ = child.stdin.take().unwrap().write_all(input.as_bytes());
    child.wait_with_output().unwrap()
}

/// What a program writes with a file `closed`, or with none.
fn with_closed(path: &str, closed: &Closed, input: &str) -> String {
    let folder = Folder::new().unwrap();
    folder.put(closed);
    let output = run(path, &folder, input);
    assert!(output.status.success());
    String::from_utf8(output.stdout).unwrap()
}

fn program(path: &str, input: &str) -> String {
    with_closed(path, &Closed::none(), input)
}

fn two_lines() -> String {
    INPUT.split_inclusive('\n').take(2).collect()
}

#[test]
fn example_of_output() {
    assert_eq!(bill(INPUT.as_bytes()), OUTPUT);
}

#[test]
fn example_of_notices() {
    assert_eq!(notice(two_lines().as_bytes()), "02200001302000022900000000000012f2\n");
    assert_eq!(notice(INPUT.as_bytes()), "");
}

#[test]
#[cfg(not(feature = "wrong-rule"))]
fn programs_give_the_examples() {
    assert_eq!(program(REF_BILL, INPUT), OUTPUT);
    assert_eq!(program(FAST_BILL, INPUT), OUTPUT);
    let notice = program(REF_NOTICE, &two_lines());
    assert_eq!(notice, "02200001302000022900000000000012f2\n");
}

// ---- The file `closed` ----

#[test]
#[cfg(not(feature = "wrong-rule"))]
fn programs_read_the_closed_days() {
    // Due on 29 February 2000 (day 59); that day and 1 March are closed.
    let closed = Closed::of(&[59, 60]);
    assert_eq!(with_closed(REF_BILL, &closed, INPUT), OUTPUT);
    assert_eq!(with_closed(FAST_BILL, &closed, INPUT), OUTPUT);
    let notice = with_closed(REF_NOTICE, &closed, &two_lines());
    assert_eq!(notice, "02200001302000030200000000000012f2\n");
}

#[test]
#[cfg(not(feature = "wrong-rule"))]
fn an_empty_file_is_an_empty_list() {
    let closed = Closed::in_file(Vec::new());
    assert_eq!(with_closed(REF_BILL, &closed, INPUT), OUTPUT);
    assert_eq!(with_closed(FAST_BILL, &closed, INPUT), OUTPUT);
    let notice = with_closed(REF_NOTICE, &closed, &two_lines());
    assert_eq!(notice, "02200001302000022900000000000012f2\n");
}

#[test]
fn a_broken_file_gives_14_to_every_line() {
    let endless = vec![b'0'; 3_000_000];
    let long = b"003b\n".repeat(600_000);
    for file in [b"003b\n003b\n".to_vec(), b"\n".to_vec(), b"003B".to_vec(), endless, long] {
        let closed = Closed::in_file(file);
        for path in [REF_BILL, FAST_BILL] {
            let input = "\n0100000000006404\njunk\n\n0100000000006404";
            assert_eq!(with_closed(path, &closed, input), BAD_LIST.repeat(5));
            assert_eq!(with_closed(path, &closed, "\n"), BAD_LIST);
            assert_eq!(with_closed(path, &closed, ""), "");
        }
        assert_eq!(with_closed(REF_NOTICE, &closed, &two_lines()), "");
    }
}

/// Nothing on standard output, and a message.
fn fails_to_read(folder: &Folder) {
    for path in [REF_BILL, FAST_BILL, REF_NOTICE] {
        for input in [INPUT, ""] {
            let output = run(path, folder, input);
            assert!(output.stdout.is_empty());
            assert!(!output.stderr.is_empty());
            assert!(!output.status.success());
        }
    }
}

#[test]
fn a_file_that_cannot_be_read_is_no_empty_list() {
    let folder = Folder::new().unwrap();
    fs::create_dir(folder.path.join("closed")).unwrap();
    fails_to_read(&folder);
}

#[test]
#[cfg(unix)]
fn a_file_that_cannot_be_opened_is_no_empty_list() {
    use std::os::unix::fs::PermissionsExt;
    let folder = Folder::new().unwrap();
    folder.put(&Closed::of(&[59]));
    let file = folder.path.join("closed");
    fs::set_permissions(&file, fs::Permissions::from_mode(0o000)).unwrap();
    // A user who may read everything can't test this.
    if fs::File::open(&file).is_err() {
        fails_to_read(&folder);
    }
}

// ---- Lines and frames ----

#[test]
fn last_line_may_lack_its_feed() {
    assert_eq!(bill(INPUT.trim_end().as_bytes()), OUTPUT);
    assert_eq!(bill(b""), "");
    assert_eq!(bill(b"\n"), NO_FRAME);
    assert_eq!(bill(b"\n\n"), NO_FRAME.repeat(2));
    assert_eq!(lines(b"a\n\nb").count(), 3);
    assert_eq!(lines(b"a\n\nb\n").count(), 3);
}

#[test]
fn lines_that_are_no_frame() {
    let bad: [&[u8]; 14] = [
        b"",
        b"0",
        b"00",
        b"0b0000",
        b"0a000",
        b"0a00000",
        b"0a000000",
        b"0A0000",
        b"0a0000\r",
        b" 0a0000",
        b"0a00g0",
        b"090028000013880",
        b"0100000000006\xff04",
        b"02001d00000078000144BA000124f8",
    ];
    for line in bad {
        assert_eq!(parse(line), None, "{}", line.escape_ascii());
        assert_eq!(bill(line), if line.is_empty() { "" } else { NO_FRAME });
    }
}

#[test]
fn each_kind_goes_there_and_back() {
    let good = [
        "0100000000006404",
        "02001d00000078000144ba000124f8",
        "03001d000144ba000124f8",
        "04001d000144ba000124f8",
        "05001d000000780000000105",
        "06001d00000078000144ba000124f8",
        "07001d0000007804",
        "08001d00000078000144ba000124f8",
        "09002800001388",
        "0affff",
    ];
    for line in good {
        let call = parse(line.as_bytes()).unwrap();
        assert_eq!(line_of(&call), line.as_bytes());
        assert_eq!(parse(&line.as_bytes()[2..]), None);
    }
}

#[test]
fn estimated_volume_and_final_volumes_in_frames() {
    // Opening, 30 m³, one miss, then 21 m³ in all: 10 and 11, net −655.
    let input = b"0100000000000004\n02001d0000001e000144ba000124f8\n\
03003b000144ba000124f8\n02005900000033000144ba000124f8";
    let output = bill(input);
    let lines: Vec<&str> = output.lines().collect();
    assert_eq!(&lines[2][..12], "000000001e00");
    assert_eq!(&lines[3][..36], "0000000000020000000a0000000bfffffd71");
}
