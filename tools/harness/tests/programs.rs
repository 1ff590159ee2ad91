//! What is timed as a whole program, where it is not what it should be.

use std::process::{Command, Output};

fn run(words: &[&str]) -> Output {
    let mut command = Command::new(env!("CARGO_BIN_EXE_harness"));
    command.args(words).output().expect("the harness runs")
}

fn said(run: &Output) -> String {
    String::from_utf8_lossy(&run.stderr).into_owned()
}

#[test]
fn programs_that_print_something_else_are_told() {
    // It prints the bytes of the trace.
    let other = ["bench", "--program", "/bin/cat", "/bin/cat"];
    let run = run(&[&other[..], &["--records", "3000"]].concat());
    assert_eq!(run.status.code(), Some(1), "{}", said(&run));
    let text = String::from_utf8(run.stdout).unwrap();
    assert!(text.ends_with("DIFFERENT\n"), "{text}");
}

#[test]
fn a_program_that_cannot_be_run_is_told() {
    let words = ["bench", "--program", "./no-such", "/bin/cat"];
    let run = run(&[&words[..], &["--records", "10"]].concat());
    assert_eq!(run.status.code(), Some(2));
    let last = said(&run).lines().last().map(str::to_string);
    assert!(last.map_or(false, |line| line.starts_with("harness: cannot run: ")));
}

#[test]
fn a_season_is_a_trace_of_so_many_records() {
    for records in [1, 10, 1000] {
        let run = run(&["season", "--records", &records.to_string()]);
        assert_eq!(run.stdout[..2], [253, 248]);
        assert_eq!(run.stdout.len(), 2 + 75 * records);
    }
}

#[test]
fn one_batch_is_called_by_the_names_of_side_and_load() {
    for side in ["proved", "reference"] {
        let called = run(&["once", side, "quiet wires", "--records", "10"]);
        assert_eq!(called.status.code(), Some(0), "{}", said(&called));
    }
    for words in [
        ["once", "nobody", "season", "--records", "10"],
        ["once", "proved", "no load", "--records", "10"],
        ["once", "proved", "season", "--records", "0"],
    ] {
        assert_eq!(run(&words).status.code(), Some(2), "{words:?}");
    }
}
