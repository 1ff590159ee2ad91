//! The golden set: which traces it keeps, that the reference gives its words,
//! and what the command does with other programs and files.

use handler::Edition;
use harness::compare::{expected, Case, Coverage};
use harness::golden::{cases, checksum, listed, Golden};
use harness::opened::opened;
use std::fs;
use std::path::{Path, PathBuf};
use std::process::{Command, Output};

const HARNESS: &str = env!("CARGO_BIN_EXE_harness");
const FILE: &str = concat!(env!("CARGO_MANIFEST_DIR"), "/golden.txt");

fn kept() -> Vec<Golden> {
    let text = fs::read_to_string(FILE).unwrap();
    listed(&text).expect("every line names a trace")
}

#[test]
fn the_file_has_the_traces_of_the_set() {
    let kept = kept();
    for edition in Edition::ALL {
        let own = kept.iter().filter(|golden| golden.edition == edition);
        assert!(own.count() >= 300);
    }
    let all: Vec<Case> = cases().collect();
    assert_eq!(all.len(), kept.len());
    for (case, golden) in all.iter().zip(&kept) {
        assert_eq!((case.kind, case.seed), (golden.kind, golden.seed));
        assert_eq!(case.edition, golden.edition);
        let bytes = case.bytes();
        assert_eq!(checksum(&bytes), golden.trace, "{golden}");
        assert_eq!(opened(&bytes).edition, case.edition);
    }
}

#[test]
fn the_reference_gives_the_words_that_are_kept() {
    for (case, golden) in cases().zip(kept()) {
        let words = expected(&case.bytes(), &mut Coverage::default());
        assert_eq!(checksum(&words), golden.words, "{golden}");
    }
}

fn run(program: &str, file: &Path) -> Output {
    let mut command = Command::new(HARNESS);
    let given = command.args(["golden", program]).arg(file).output();
    given.expect("the harness runs")
}

/// A file with this text, in a folder of its own.
fn file(name: &str, text: &str) -> PathBuf {
    let path = Path::new(env!("CARGO_TARGET_TMPDIR")).join(name);
    fs::write(&path, text).unwrap();
    path
}

#[test]
fn another_program_is_different() {
    let given = run("/bin/cat", Path::new(FILE));
    assert_eq!(given.status.code(), Some(1));
    let said = String::from_utf8(given.stdout).unwrap();
    assert!(
        said.contains("DIFFERENT: trace mixed seed 1 of edition 24: the program gives other words")
    );
}

#[test]
fn without_a_name_it_is_the_file_of_the_repository() {
    let top = Path::new(env!("CARGO_MANIFEST_DIR")).join("../..");
    let mut command = Command::new(HARNESS);
    let given = command.args(["golden", "/bin/cat"]).current_dir(top);
    let given = given.output().expect("the harness runs");
    assert_eq!(given.status.code(), Some(1));
    assert_eq!(given.stderr, b"");
}

#[test]
fn another_trace_is_told() {
    let text = "70 mixed 1 0000000000000001 0000000000000002\n";
    let given = run("/bin/cat", &file("another-trace", text));
    assert_eq!(given.status.code(), Some(1));
    let said = String::from_utf8(given.stdout).unwrap();
    assert!(said.contains("the generator gives another trace"), "{said}");
}

#[test]
fn a_file_that_is_none_is_told_in_one_line() {
    for (path, wanted) in [
        (
            file("bad-line", "# x\n24 mixed one 2 3\n"),
            "line 2 names no trace",
        ),
        (file("no-lines", "# x\n"), "no traces"),
        (PathBuf::from("no/such/file"), "No such file"),
    ] {
        let given = run("/bin/cat", &path);
        assert_eq!(given.status.code(), Some(2));
        let said = String::from_utf8(given.stderr).unwrap();
        assert_eq!(said.lines().count(), 1, "{said}");
        assert!(said.starts_with("harness: cannot read ") && said.contains(wanted));
    }
}

#[test]
fn what_is_kept_is_equal_to_itself() {
    let kept = Command::new(HARNESS)
        .args(["golden", "/bin/cat", "--write"])
        .output()
        .expect("the harness runs");
    assert_eq!(kept.status.code(), Some(0));
    let path = file("of-cat", std::str::from_utf8(&kept.stdout).unwrap());
    let given = run("/bin/cat", &path);
    assert_eq!(given.status.code(), Some(0));
    assert!(given.stdout.ends_with(b"EQUAL\n"));
}
