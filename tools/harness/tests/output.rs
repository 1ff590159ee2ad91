//! Standard output that cannot be written: a reader that went away ends a command quietly and keeps its verdict, a full
//! device is told in one line.

use std::fs::File;
use std::process::{Command, Output, Stdio};

const HARNESS: &str = env!("CARGO_BIN_EXE_harness");

/// Commands that print at once, at the end, and as bytes.
const COMMANDS: [&[&str]; 4] = [
    &["bench"],
    &["states", "--states", "10"],
    &["write", "--lists", "10"],
    &["trace", "escalate", "1", "--edition", "70"],
];

/// A program that prints nothing, so that fuzz finds a difference at once.
const FUZZ: [&str; 3] = ["fuzz", "/bin/true", "20"];

fn run(words: &[&str], output: impl Into<Stdio>) -> Output {
    let mut command = Command::new(HARNESS);
    let child = command
        .args(words)
        .stdin(Stdio::null())
        .stdout(output)
        .stderr(Stdio::piped())
        .spawn()
        .expect("the harness runs");
    child.wait_with_output().expect("the harness ends")
}

/// The writing end of a pipe that nobody reads.
fn unread() -> Stdio {
    let mut reader = Command::new("true")
        .stdin(Stdio::piped())
        .spawn()
        .expect("true runs");
    let end = reader.stdin.take().expect("it is piped");
    reader.wait().expect("true ends");
    end.into()
}

fn full() -> File {
    File::options().write(true).open("/dev/full").unwrap()
}

fn said(run: &Output) -> &str {
    std::str::from_utf8(&run.stderr).unwrap()
}

#[test]
fn a_reader_that_went_away_is_no_failure() {
    for words in COMMANDS {
        let run = run(words, unread());
        assert_eq!(run.status.code(), Some(0), "{words:?}: {}", said(&run));
        assert_eq!(said(&run), "", "{words:?}");
    }
}

#[test]
fn a_difference_is_a_difference_though_nobody_reads_it() {
    let run = run(&FUZZ, unread());
    assert_eq!(run.status.code(), Some(1), "{}", said(&run));
    assert!(!said(&run).contains("panicked"), "{}", said(&run));
}

#[test]
fn a_full_device_is_told_in_one_line() {
    for words in COMMANDS {
        let run = run(words, full());
        assert_eq!(run.status.code(), Some(2), "{words:?}");
        assert_eq!(said(&run).lines().count(), 1, "{}", said(&run));
        assert!(said(&run).starts_with("harness: cannot write: "));
    }
    let run = run(&FUZZ, full());
    assert_eq!(run.status.code(), Some(2));
    let last = said(&run).lines().last().unwrap_or_default();
    assert!(last.starts_with("harness: cannot write: "), "{last}");
}

#[test]
fn progress_that_cannot_be_written_stops_nothing() {
    let status = Command::new(HARNESS)
        .args(FUZZ)
        .stdout(Stdio::null())
        .stderr(full())
        .status()
        .expect("the harness runs");
    assert_eq!(status.code(), Some(1));
}
