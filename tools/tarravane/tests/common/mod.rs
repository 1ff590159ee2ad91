//! What the tests of the commands share.
// Each test file is a program of its own and uses some of this.
#![allow(dead_code)]
pub mod folder;
pub mod json;
pub mod page;
pub mod ran;
pub mod random;
pub mod records;
pub mod round;
pub mod svg;
pub mod vcd;
pub mod wave;
pub mod xml;

use std::fs;
use std::io::Write;
use std::path::PathBuf;
use std::process::{Command, Output, Stdio};
use std::thread;

/// The path of a file of the repository.
pub fn repository(name: &str) -> String {
    let root = PathBuf::from(env!("CARGO_MANIFEST_DIR")).join("../..");
    root.join(name).to_string_lossy().into_owned()
}

/// The path of an example.
pub fn example(name: &str) -> String {
    repository(&format!("examples/{name}"))
}

/// The names of the examples that have a file of this ending.
pub fn examples(ending: &str) -> Vec<String> {
    let entries = fs::read_dir(example("")).expect("the examples");
    let names = entries.map(|entry| entry.expect("an entry").file_name());
    let ending = format!(".{ending}");
    let stem = |name: &str| name.strip_suffix(&ending).map(str::to_string);
    let mut all: Vec<String> = names
        .filter_map(|name| stem(&name.to_string_lossy()))
        .collect();
    all.sort();
    all
}

/// The program, to be run with these words.
pub fn program(command: &str, words: &[&str]) -> Command {
    let mut program = Command::new(env!("CARGO_BIN_EXE_tarravane-cli"));
    program.arg(command).args(words);
    program
}

/// Runs a command with these words, the bytes on standard input.
pub fn run(command: &str, words: &[&str], input: &[u8]) -> Output {
    let mut child = program(command, words)
        .stdin(Stdio::piped())
        .stdout(Stdio::piped())
        .stderr(Stdio::piped())
        .spawn()
        .expect("it starts");
    let mut to = child.stdin.take().expect("its input");
    let input = input.to_vec();
    // A run that reads no further closes its input: that is no fault.
    let feeder = thread::spawn(move || drop(to.write_all(&input)));
    let output = child.wait_with_output().expect("it ends");
    feeder.join().expect("the feeder ends");
    output
}

/// What a run writes, and the lines that it says beside it, each without who says it.
pub fn ended(command: &str, words: &[&str], input: &[u8], status: i32) -> (Vec<u8>, Vec<String>) {
    let output = run(command, words, input);
    let said = String::from_utf8(output.stderr).expect("text");
    assert_eq!(output.status.code(), Some(status), "{words:?}: {said}");
    assert!(said.is_empty() || said.ends_with('\n'), "{said}");
    let line = |line: &str| line.strip_prefix("tarravane: ").map(str::to_string);
    let said = said
        .lines()
        .map(|l| line(l).expect("who says it"))
        .collect();
    (output.stdout, said)
}

/// What a run that goes well writes. Texts of tests may stage what they never commit.
pub fn given(command: &str, words: &[&str], input: &[u8]) -> Vec<u8> {
    let (written, mut said) = ended(command, words, input, 0);
    said.retain(|line| !line.contains("never committed"));
    assert!(said.is_empty(), "{said:?}");
    written
}

/// The one line that a refused run says: status 2, and nothing written.
pub fn refused(command: &str, words: &[&str], input: &[u8]) -> String {
    let (written, mut said) = ended(command, words, input, 2);
    assert!(written.is_empty(), "{words:?}");
    assert_eq!(said.len(), 1, "{said:?}");
    said.remove(0)
}

/// The trace of a text; what is warned of is not looked at.
pub fn recorded(text: &str) -> Vec<u8> {
    ended("record", &["-"], text.as_bytes(), 0).0
}

/// What is said of a text that gives no trace.
pub fn said_of(text: impl AsRef<[u8]>) -> String {
    refused("record", &["-"], text.as_ref())
}

/// The lines of an `explain` that goes well.
pub fn explained(words: &[&str], input: &[u8]) -> Vec<String> {
    let text = String::from_utf8(given("explain", words, input)).expect("text");
    text.lines().map(str::to_string).collect()
}

/// A text in which each line `configure REGISTER VALUE` stands for the two equal writes that it takes.
pub fn configured(text: &str) -> String {
    let line = |line: &str| match line.trim_start().strip_prefix("configure ") {
        Some(rest) => format!("write {rest}\nwrite {rest}\n"),
        None => format!("{line}\n"),
    };
    text.lines().map(line).collect()
}
