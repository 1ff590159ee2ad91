//! `--start TIME --tick SECONDS`: ticks with their wall-clock times.
mod common;

use common::json::{parsed, Json};
use common::svg::texts;
use common::wave::picture;
use common::{example, explained, refused};
use std::fs;

const CLOCK: [&str; 4] = ["--start", "2026-03-01T23:59:50Z", "--tick", "0.5"];

fn explained_with(words: &[&str]) -> Vec<String> {
    let seal = example("broken-seal.trace");
    explained(&[&CLOCK[..], words, &[&seal]].concat(), &[])
}

#[test]
fn rows_begin_with_their_times() {
    let rows = explained_with(&[]);
    let plain = explained(&[&example("broken-seal.trace")], &[]);
    assert!(rows[0].ends_with("; tick 1 at 2026-03-01 23:59:50.0Z, 0.5 s a tick"));
    assert!(
        rows[1].starts_with("time                    tick access"),
        "{}",
        rows[1]
    );
    assert_eq!(rows.len(), plain.len());
    for (row, plain) in rows[2..].iter().zip(&plain[2..]) {
        assert_eq!(&row[22..], plain);
    }
    assert!(rows[2].starts_with("2026-03-01 23:59:50.0      1 "));
    assert!(rows[2 + 20].starts_with("2026-03-02 00:00:00.0     21 "));
}

#[test]
fn the_summary_has_them_in_brackets() {
    let all = explained_with(&["--summary"]);
    assert_eq!(
        all[1],
        "class A: 1 start; clears accepted none, refused at 26 (2026-03-02 00:00:02.5)"
    );
    let events = "  ALERT0: 3 events, first at 16 (23:59:57.5), last at 24 (2026-03-02 00:00:01.5)";
    assert!(all.contains(&events.to_string()), "{all:#?}");
}

#[test]
fn objects_have_them() {
    let all = explained_with(&["--json", "--from", "24"]);
    let head = parsed(&format!("{}\n", all[0]));
    assert_eq!(head.get("start"), &Json::text("2026-03-01T23:59:50.0Z"));
    assert_eq!(head.get("tick_seconds"), &Json::text("0.5"));
    let tick = parsed(&format!("{}\n", all[1]));
    assert_eq!(tick.get("time"), &Json::text("2026-03-02T00:00:01.5Z"));
}

#[test]
fn pictures_have_them_at_the_axis_and_in_the_caption() {
    let trace = fs::read(example("broken-seal.trace")).expect("the example");
    let picture = picture(&trace, &CLOCK);
    let numbers = texts(&picture, "number");
    assert_eq!(numbers.len(), 37);
    assert_eq!(numbers[0], "1  23:59:50.0");
    assert_eq!(numbers[36], "37  2026-03-02 00:00:08.0");
    let head = "What happened (numbers are ticks; tick 1 at 2026-03-01 23:59:50.0Z, 0.5 s a tick)";
    assert_eq!(texts(&picture, "head"), [head]);
    let first = "first event of an enabled alert: ALERT0 at 16 (23:59:57.5)";
    assert_eq!(texts(&picture, "told")[0], first);
}

#[test]
fn both_are_wanted() {
    let seal = example("broken-seal.trace");
    for (words, why) in [
        (&CLOCK[..2], "--start and --tick go together"),
        (&CLOCK[2..], "--start and --tick go together"),
        (
            &["--start", "noon", "--tick", "1"],
            "--start wants a time, as 2026-03-01T04:00:00Z, not noon",
        ),
        (
            &["--start", "2026-03-01T04:00:00", "--tick", "0"],
            "--tick wants seconds over 0, as 0.001, not 0",
        ),
    ] {
        assert_eq!(
            refused("explain", &[&[&seal[..]], words].concat(), &[]),
            why
        );
    }
}
