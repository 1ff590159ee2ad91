//! `diff`: the first tick in which the words of two traces differ.
mod common;

use common::folder::Folder;
use common::{ended, example, explained, given, refused};
use handler::Edition;
use harness::compare::generated;
use std::fs;

/// What is said of two traces.
fn said(words: &[&str], input: &[u8], status: i32) -> Vec<String> {
    let (out, said) = ended("diff", words, input, status);
    assert!(said.is_empty(), "{said:?}");
    let text = String::from_utf8(out).expect("text");
    text.lines().map(str::to_string).collect()
}

/// Both rows are those of explain.
#[test]
fn the_first_tick_that_differs() {
    let [a, b] = ["cut-cable.trace", "cut-cable-first.trace"].map(example);
    let all = said(&[&a, &b], &[], 1);
    let row = |trace: &str| explained(&[trace, "--from", "30", "--to", "30"], &[]).remove(2);
    let title = "alerts: 1; records of 75 bytes, edition wires";
    assert_eq!(
        all[..2],
        [format!("A: {a}: {title}"), format!("B: {b}: {title}")]
    );
    let words = "words differ at tick 30: 0400000000000000 and 0800000000000000";
    assert_eq!(all[2], words);
    assert_eq!(all[4..6], [row(&a), row(&b)]);
    assert_eq!(
        all[6..],
        ["accesses, wires or entropy differ first at tick 18"]
    );
}

#[test]
fn a_trace_is_the_same_as_itself() {
    let seal = example("broken-seal.trace");
    let all = said(&[&seal, &seal], &[], 0);
    assert_eq!(all[2..], ["the words are the same"]);
    let bytes = fs::read(&seal).expect("the example");
    assert_eq!(said(&[&seal, "-"], &bytes, 0)[2..], all[2..]);
    // The same ticks in another edition.
    let text = String::from_utf8(given("record", &["--back", &seal], &[])).expect("text");
    let newer = given(
        "record",
        &["-"],
        text.replace("edition 24", "edition 70").as_bytes(),
    );
    assert_eq!(said(&[&seal, "-"], &newer, 0)[2..], all[2..]);
}

#[test]
fn one_that_ends_before_the_other() {
    let seal = example("broken-seal.trace");
    let bytes = fs::read(&seal).expect("the example");
    let shorter = &bytes[..bytes.len() - 24];
    let ends = |all: Vec<String>, last: &str| assert_eq!(all[2..], [last]);
    ends(
        said(&["-", &seal], shorter, 1),
        &format!("- ends after tick 36, {seal} goes on"),
    );
    ends(
        said(&[&seal, "-"], shorter, 1),
        &format!("- ends after tick 36, {seal} goes on"),
    );
    let cut = &bytes[..bytes.len() - 1];
    let all = said(&[&seal, "-"], cut, 1);
    assert_eq!(
        all[3],
        "B: cut: 23 bytes after tick 36, too few for a record"
    );
    let all = said(&[&seal, "-"], &[], 1);
    assert_eq!(
        all,
        ["refused: -: the trace is empty: it begins with the number of alerts"]
    );
}

/// Where a record is another one, no word before it differs.
#[test]
fn nothing_before_it_differs() {
    let folder = Folder::new("diff");
    for edition in Edition::ALL {
        let bytes = generated(edition, 3).next().expect("a case").bytes();
        let name = folder.path("a.trace");
        fs::write(&name, &bytes).expect("a trace");
        let mut other = bytes.clone();
        // The 200th record is a read of a register that there is not.
        let at = bytes.len() % edition.bytes() + 199 * edition.bytes();
        let record = common::records::record(edition, 1, 3, 0, handler::Wires::REST);
        other[at..at + edition.bytes()].copy_from_slice(&record);
        let all = said(&[&name, "-"], &other, 1);
        assert!(
            all[2].starts_with("words differ at tick 200: "),
            "{}",
            all[2]
        );
        assert!(
            all[2].ends_with("10000000000000") || all[2].contains(" and "),
            "{}",
            all[2]
        );
    }
}

#[test]
fn bad_words_are_told() {
    let seal = example("broken-seal.trace");
    for (words, why) in [
        (
            &[&seal[..]][..],
            "diff wants two traces: files, or - for standard input",
        ),
        (
            &["-", "-"],
            "diff reads standard input once: one of the traces is a file",
        ),
        (&[&seal, &seal, "--summary"], "diff has no option --summary"),
    ] {
        assert_eq!(refused("diff", words, &[]), why);
    }
    assert!(refused("diff", &[&seal, "missing"], &[]).starts_with("cannot open missing: "));
}
