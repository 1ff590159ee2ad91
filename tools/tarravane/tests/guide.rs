//! The programmer's guide (source document 001) as traces: what the texts say beside each tick happens in it, and `explain
//! --summary` tells what the guide says should happen.
mod common;

use common::{example, explained};
use std::fs;

/// Those of the guide, and one of a ping that fails.
const TEXTS: [&str; 7] = [
    "initialise",
    "interrupt-in-time",
    "interrupt-too-late",
    "clear-locked-by-software",
    "interrupt-test",
    "fast-track",
    "stuck-sender",
];

fn read(name: &str) -> String {
    fs::read_to_string(example(name)).expect(name)
}

/// The comment of each line that is a tick, and the word of that tick.
fn ticks(name: &str) -> Vec<(String, u64)> {
    let text = read(&format!("{name}.txt"));
    let lines = text
        .lines()
        .map(|line| line.split_once('#').unwrap_or((line, "")));
    let is_tick = |line: &str| {
        ["none", "read", "write"]
            .iter()
            .any(|k| line.starts_with(k))
    };
    let comments = lines.filter(|(line, _)| is_tick(line)).map(|(_, it)| it);
    let words = read(&format!("{name}.words"));
    let words = words
        .lines()
        .map(|word| u64::from_str_radix(word, 16).expect("hex"));
    let all: Vec<(String, u64)> = comments.map(str::to_string).zip(words.clone()).collect();
    assert_eq!(all.len(), words.count());
    all
}

/// The number after these words: decimal, or hex after 0x.
fn number_after(comment: &str, words: &str) -> Option<u64> {
    let (_, rest) = comment.split_once(words)?;
    let end = rest.find(|c: char| !c.is_ascii_alphanumeric());
    let number = &rest[..end.unwrap_or(rest.len())];
    match number.strip_prefix("0x") {
        Some(hex) => u64::from_str_radix(hex, 16).ok(),
        None => number.parse().ok(),
    }
}

/// The lines that a comment says are on, as the word has them; none where it says nothing of them.
fn lines(comment: &str) -> Option<u64> {
    let comment = comment.replace("of line", "");
    let line = |rest: &str| rest.chars().next().and_then(|e| e.to_digit(10));
    let on: u64 = comment
        .split("line ")
        .skip(1)
        .filter_map(line)
        .map(|e| 8 >> e)
        .sum();
    (on > 0 || comment.contains("no line")).then_some(on)
}

/// What is said of a tick's number, of a value that is read, of a refusal and of lines is so.
#[test]
fn what_a_comment_says_happens() {
    let (mut numbers, mut values, mut refusals, mut driven) = (0, 0, 0, 0);
    for name in TEXTS {
        for (at, (comment, word)) in (1..).zip(ticks(name)) {
            let told = |words: &str| number_after(&comment, words);
            let place = format!("{name}, tick {at}:{comment}");
            if let Some(number) = told(" tick ").filter(|_| comment.starts_with(" tick ")) {
                assert_eq!(number, at, "{place}");
                numbers += 1;
            }
            if let Some(value) = told("reads ") {
                assert_eq!(word & 0xFFFF_FFFF, value, "{place}");
                values += 1;
            }
            let refusal = told("refused with ").unwrap_or(0);
            assert_eq!(word >> 52 & 15, refusal, "{place}");
            refusals += u64::from(refusal > 0);
            if let Some(on) = lines(&comment) {
                assert_eq!(word >> 56 & 15, on, "{place}");
                driven += 1;
            }
        }
    }
    assert!(numbers > 100 && values > 30 && refusals > 10 && driven > 30);
}

/// What the summary says of classes, events and refusals.
fn told(name: &str) -> Vec<String> {
    let all = explained(&["--summary", &example(&format!("{name}.trace"))], &[]);
    let quiet = |line: &String| line.ends_with(": no start; no clear");
    all.into_iter()
        .skip(1)
        .filter(|line| !quiet(line))
        .collect()
}

/// "False alerts during power-up and reset are not possible": what is off gives nothing, what is locked stays.
#[test]
fn initialise() {
    assert_eq!(
        told("initialise"),
        [
            "events:",
            "  ALERT1: 1 event, at 83",
            "  ALERT2: 1 event, at 81; 1 while disabled, at 81",
            "equal wires: none",
            "switched on: ALERT0 at 2, ALERT1 at 7, LOC_ALERT0 at 17, LOC_ALERT1 at 22, LOC_ALERT2 at 27, LOC_ALERT5 at 32, \
             class A at 51, LOCK of class A at 51 and 1 more, then interrupt A at 70, interrupt B at 70, ping timer at 71",
            "switched off: line 1 of class B at 66, line 2 of class B at 66",
            "ping timer: on at 71; 1 ping: 1 answered",
            "shadow writes: 29 staged, 29 committed; dropped none; open at the end none",
            "other refusals, by number:",
            "  3 (locked): 4 times, at 76, 77, 78, 79",
            "at the end:",
            "  class A: EN 1, LOCK 1, ACCUM_THRESH 2, locked; Idle",
            "  class B: EN 1, LOCK 0, ACCUM_THRESH 9, locked; Idle, ACCUM_CNT 1",
            "  classes C, D: EN 0, LOCK 0, ACCUM_THRESH 0, locked; Idle",
        ]
    );
}

/// Handled in time: the clear is accepted, and nothing starts.
#[test]
fn interrupt_in_time() {
    assert_eq!(
        told("interrupt-in-time")[..3],
        [
            "class A: no start; clears accepted at 24, refused none",
            "events:",
            "  ALERT0: 1 event, at 15",
        ]
    );
}

/// Too late: "This also aborts the escalation protocol"; with LOCK "it can not be stopped".
#[test]
fn interrupt_too_late() {
    assert_eq!(
        told("interrupt-too-late")[..6],
        [
            "class A: 1 start; clears accepted at 50, refused none",
            "  start at 44 by the timeout; locked, no LOCK; Ph0 44, Ph1 46, Ph2 48, cleared 50",
            "    line 0 44-45, line 1 46-47, line 2 48-49",
            "class B: 1 start; clears accepted none, refused at 59, 66",
            "  start at 57 by the timeout; locked, LOCK set; Ph0 57, Ph1 59, Ph2 61, Ph3 63, Term 65",
            "    line 0 57-58, line 1 59-60, line 2 61-62, line 3 63-64",
        ]
    );
}

/// CLR_REGWEN 0: "never allow the accumulator or escalation to be cleared", though LOCK is not set.
#[test]
fn clear_locked_by_software() {
    assert_eq!(
        told("clear-locked-by-software")[..3],
        [
            "class A: 1 start; clears accepted at 19, refused at 23, 32, 39",
            "  start at 31 by ALERT0; locked, no LOCK; Ph0 31, Ph1 33, Ph2 35, Ph3 37, Term 39",
            "    line 0 31-32, line 1 33-34, line 2 35-36, line 3 37-38",
        ]
    );
}

/// The test "does also trigger the internal interrupt timeout"; "alert accumulation will not be triggered".
#[test]
fn interrupt_test() {
    assert_eq!(
        told("interrupt-test")[..4],
        [
            "class A: 1 start; clears accepted at 32, refused none",
            "  start at 24 by the timeout; not locked, no LOCK; Ph0 24, Ph1 25, Ph2 26, Ph3 27, Term 28, cleared 32",
            "    line 0 24-24, line 1 25-25, line 2 26-26, line 3 27-27",
            "events: none",
        ]
    );
}

/// The measure of a critical alert in the tick of its first event; at the guide's 1 in that of the second.
#[test]
fn fast_track() {
    assert_eq!(
        told("fast-track")[..9],
        [
            "class A: 1 start; clears accepted none, refused at 25",
            "  start at 23 by ALERT0; locked, LOCK set; Ph0 23, Ph1 27, Ph2 28, Ph3 29, Term 30",
            "    line 2 23-26",
            "class B: 1 start; clears accepted at 38, refused none",
            "  start at 36 by ALERT1; locked, no LOCK; Ph0 36, cleared 38",
            "    line 1 36-37",
            "events:",
            "  ALERT0: 1 event, at 23",
            "  ALERT1: 2 events, first at 32, last at 36",
        ]
    );
}
