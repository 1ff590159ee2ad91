//! `explain --summary`: what a technician asks first.
mod common;

use common::{configured, example, explained, given};

/// The summary of the trace of a text, with `configure` for two equal writes.
fn summary_of(edition: &str, text: &str) -> Vec<String> {
    let text = format!("edition {edition}\n{}", configured(text));
    let trace = given("record", &["-"], text.as_bytes());
    explained(&["--summary", "-"], &trace)
}

/// It is the same in every edition, but for the title, and that the ping timer is off where there is one.
fn summary(text: &str) -> Vec<String> {
    let [first, second, mut newest] = ["24", "70", "pings"].map(|name| summary_of(name, text));
    let off = newest.iter().position(|line| line == "ping timer: off");
    newest.remove(off.expect("a line of the ping timer"));
    assert!(first[0] != second[0] && second[0] != newest[0]);
    assert_eq!(first[1..], second[1..]);
    assert_eq!(second[1..], newest[1..]);
    second
}

/// The lines of class A, without the first.
fn starts(all: &[String]) -> &[String] {
    let end = all.iter().position(|line| line.starts_with("class B"));
    &all[2..end.expect("class B")]
}

fn of_example(name: &str) -> String {
    let trace = example(&format!("{name}.trace"));
    String::from_utf8(given("explain", &["--summary", &trace], &[])).expect("text")
}

#[test]
fn the_broken_seal() {
    assert_eq!(
        of_example("broken-seal"),
        "\
alerts: 2; records of 24 bytes; ticks: 37
class A: 1 start; clears accepted none, refused at 26
  start at 24 by ALERT0; locked, LOCK set; Ph0 24, Ph1 27, Ph2 30, Ph3 33, Term 36
    line 0 24-26, line 1 27-29, line 2 30-32, line 3 33-35
class B: no start; no clear
class C: no start; no clear
class D: no start; no clear
events:
  ALERT0: 3 events, first at 16, last at 24
equal wires: none
switched on: ALERT0 at 2, class A at 14, LOCK of class A at 14
switched off: none
shadow writes: 7 staged, 7 committed; dropped none; open at the end none
other refusals: none
at the end:
  class A: EN 1, LOCK 1, ACCUM_THRESH 2, locked, clear locked; Terminal, ACCUM_CNT 3
  classes B, C, D: EN 0, LOCK 0, ACCUM_THRESH 0, not locked; Idle
"
    );
}

#[test]
fn the_far_alert() {
    assert_eq!(
        of_example("far-alert"),
        "\
alerts: 248; records of 70 bytes; ticks: 34
class A: no start; no clear
class B: 1 start; clears accepted none, refused at 26
  start at 25 by the timeout; locked, LOCK set; Ph0 25, Ph1 27, Ph2 29, Ph3 31, Term 33
    line 0 25-26, line 1 27-28, line 2 29-30, line 3 31-32
class C: no start; no clear
class D: no start; no clear
events:
  ALERT247: 1 event, at 21
equal wires: none
switched on: ALERT247 at 2, class B at 18, LOCK of class B at 18, interrupt B at 20
switched off: none
shadow writes: 9 staged, 9 committed; dropped none; open at the end none
other refusals: none
at the end:
  class A: EN 0, LOCK 0, ACCUM_THRESH 0, not locked; Idle
  class B: EN 1, LOCK 1, ACCUM_THRESH 100, locked, clear locked; Terminal, ACCUM_CNT 1
  classes C, D: EN 0, LOCK 0, ACCUM_THRESH 0, not locked; Idle
"
    );
}

/// The lock that was refused is told, and the start came when the class was locked.
#[test]
fn the_silly_threshold() {
    let text = of_example("silly-threshold");
    for line in [
        "class A: 1 start; clears accepted none, refused at 20",
        "  start at 19 by ALERT0; locked, LOCK set; Ph0 19, Ph1 20, Ph2 21, Ph3 22, Term 23",
        "settings changed again: CLASSA_ACCUM_THRESH at 17",
        "  1 (no register): 1 time, at 9",
        "  14 (lock with a threshold of 65535): 1 time, at 12",
    ] {
        assert!(text.contains(&format!("{line}\n")), "{text}");
    }
}

#[test]
fn refusals_are_counted_by_number() {
    let text = of_example("refused-accesses");
    let refusals = "\
events:
  ALERT0: 1 event, at 19
equal wires: none
switched on: ALERT0 at 2, class A at 6, LOCK of class A at 6
switched off: none
settings changed again: CLASSA_ACCUM_THRESH at 15
shadow writes: 5 staged, 4 committed; dropped at 13; open at the end none
other refusals, by number:
  1 (no register): 2 times, at 7, 18
  2 (write only or read only): 2 times, at 8, 9
  3 (locked): 1 time, at 17
  4 (too wide): 1 time, at 10
  5 (malformed): 1 time, at 19
  12 (second write differs): 1 time, at 13
  14 (lock with a threshold of 65535): 1 time, at 11
at the end:
  class A: EN 1, LOCK 1, ACCUM_THRESH 100, locked; Idle, ACCUM_CNT 1
  classes B, C, D: EN 0, LOCK 0, ACCUM_THRESH 0, not locked; Idle
";
    assert!(text.ends_with(refusals), "{text}");
}

/// A start by two alerts and a local one, no lock, a clear in Phase 1, and a line that two phases in a row drive.
#[test]
fn a_start_that_is_cleared() {
    let all = summary(
        "alerts 4
        configure ALERT0_EN 1
        configure ALERT2_EN 1
        configure ALERT3_EN 1
        configure ALERT3_CLASS 1
        configure LOC_ALERT2_EN 1
        configure CLASSA_PHASE0_CYC 2
        configure CLASSA_PHASE1_CYC 9
        configure CLASSA_CTRL 0x105     # EN, line 0 in phase 0 and no other
        none wires 0=10 1-3=11      # 17
        none wires 2=10
        none
        none
        write CLASSA_CLR 1          # 21
        none wires 1=10",
    );
    assert_eq!(
        all[1],
        "class A: 1 start; clears accepted at 21, refused none"
    );
    assert_eq!(
        starts(&all),
        [
            "  start at 17 by ALERT0 LOC_ALERT2; not locked, no LOCK; Ph0 17, Ph1 19, cleared 21",
            "    line 0 17-18",
        ]
    );
    assert_eq!(
        all[all.len() - 16..],
        [
            "events:",
            "  ALERT0: 1 event, at 17",
            "  ALERT1: 1 event, at 22; 1 while disabled, at 22",
            "  ALERT2: 1 event, at 18",
            "  LOC_ALERT2: 1 occurrence, at 17",
            "equal wires:",
            "  ALERT1: 17-17",
            "  ALERT2: 17-17",
            "  ALERT3: 17-17",
            "switched on: ALERT0 at 2, ALERT2 at 4, ALERT3 at 6, LOC_ALERT2 at 10, class A at 16",
            "switched off: line 1 of class A at 16, line 2 of class A at 16, line 3 of class A at 16",
            "shadow writes: 8 staged, 8 committed; dropped none; open at the end none",
            "other refusals: none",
            "at the end:",
            "  class A: EN 1, LOCK 0, ACCUM_THRESH 0, not locked; Idle",
            "  classes B, C, D: EN 0, LOCK 0, ACCUM_THRESH 0, not locked; Idle",
        ]
    );
}

/// An interrupt that nobody clears: the timeout starts it, and the trace ends in Phase 0 with the line on.
#[test]
fn a_start_by_the_timeout() {
    let all = summary(
        "alerts 1
        configure ALERT0_EN 1
        configure CLASSA_ACCUM_THRESH 9
        configure CLASSA_TIMEOUT_CYC 4
        configure CLASSA_PHASE0_CYC 100
        configure CLASSA_CTRL 0x393f
        none wires 0=10             # 11: Timeout, count 1
        none
        none
        none
        none wires 0=10             # 15: an event, but no trigger
        none",
    );
    assert_eq!(
        starts(&all),
        [
            "  start at 15 by the timeout; not locked, LOCK set; Ph0 15",
            "    line 0 15-end",
        ]
    );
    let events = "  ALERT0: 2 events, first at 11, last at 15".to_string();
    assert!(all.contains(&events), "{all:?}");
}

/// The class that drives a line is the one that it stands under; a trigger in Timeout is one by alerts.
#[test]
fn two_classes_on_one_line() {
    let all = summary(
        "alerts 2
        configure ALERT0_EN 1
        configure ALERT1_EN 1
        configure ALERT1_CLASS 1
        configure CLASSA_ACCUM_THRESH 1
        configure CLASSA_TIMEOUT_CYC 50
        configure CLASSA_PHASE0_CYC 3
        configure CLASSB_PHASE0_CYC 3
        configure CLASSA_CTRL 0x5
        configure CLASSB_CTRL 0x5
        none wires 0=10             # 19: A to Timeout
        none
        none
        none wires 1=10             # 22: B starts
        none wires 0=10             # 23: A starts
        write CLASSA_REGWEN 0
        none
        none",
    );
    let shown: Vec<&str> = all.iter().map(String::as_str).collect();
    assert_eq!(
        shown[1..7],
        [
            "class A: 1 start; no clear",
            "  start at 23 by ALERT0; not locked, no LOCK; Ph0 23, Ph1 26",
            "    line 0 23-25",
            "class B: 1 start; no clear",
            "  start at 22 by ALERT1; not locked, no LOCK; Ph0 22, Ph1 25, Ph2 26",
            "    line 0 22-24",
        ]
    );
}

/// Of starts, clears and lines the first and the last are shown, and those between counted.
#[test]
fn long_lists_are_counted() {
    let head = "alerts 1\nconfigure ALERT0_EN 1\nconfigure CLASSA_PHASE0_CYC 1000\nconfigure CLASSA_CTRL 0x5\n";
    let again = "none wires 0=10\nwrite CLASSA_CLR 1\nnone\nnone\n".repeat(20);
    let all = summary(&format!("{head}{again}"));
    let ticks = "8, 12, 16, 20, 24, 28, 32, 36";
    assert_eq!(
        all[1],
        format!("class A: 20 starts; clears accepted at {ticks} and 9 more, then 76, 80, 84, refused none")
    );
    let starts = starts(&all);
    assert_eq!(starts.len(), 2 * 8 + 1 + 2 * 3);
    assert_eq!(
        starts[14],
        "  start at 35 by ALERT0; not locked, no LOCK; Ph0 35, cleared 36"
    );
    assert_eq!(starts[15], "    line 0 35-35");
    assert_eq!(starts[16], "  and 9 more starts, then");
    for (at, tick) in [(17, 75), (19, 79), (21, 83)] {
        let cleared = tick + 1;
        assert_eq!(
            starts[at],
            format!(
                "  start at {tick} by ALERT0; not locked, no LOCK; Ph0 {tick}, cleared {cleared}"
            )
        );
        assert_eq!(starts[at + 1], format!("    line 0 {tick}-{tick}"));
    }
    let blink = "configure CLASSA_CTRL 0x1\nconfigure CLASSA_CTRL 0x5\n".repeat(10);
    let all = summary(&format!("{head}none wires 0=10\n{blink}"));
    assert!(
        all[3].starts_with("    line 0 7-8, line 0 11-12, "),
        "{}",
        all[3]
    );
    assert!(
        all[3].ends_with(", line 0 35-36, line 0 39-40, line 0 43-44, line 0 47-end"),
        "{}",
        all[3]
    );
}

/// A 0 that is written to CLR clears nothing, and a value that is too wide is no clear.
#[test]
fn what_is_no_clear() {
    let all = summary(
        "alerts 1\nwrite CLASSB_CLR 0\nwrite CLASSB_CLR 2\nread CLASSB_CLR\nwrite CLASSD_CLR 1\n",
    );
    assert_eq!(all[2], "class B: no start; no clear");
    assert_eq!(
        all[4],
        "class D: no start; clears accepted at 4, refused none"
    );
    assert_eq!(
        all[9..13],
        [
            "shadow writes: none",
            "other refusals, by number:",
            "  2 (write only or read only): 1 time, at 3",
            "  4 (too wide): 1 time, at 2",
        ]
    );
}

/// Stages that are dropped by a read, a differing write and a lock, and those that are open at the end.
#[test]
fn shadow_writes_are_counted() {
    let all = summary(
        "alerts 9
        configure LOC_ALERT5_EN 1
        write CLASSA_CTRL 0x393d
        read CLASSA_CTRL            # 4
        write ALERT0_EN 1
        write ALERT0_EN 0           # 6: it differs
        write ALERT8_CLASS 3
        write ALERT8_REGWEN 0
        write ALERT8_CLASS 3        # 9: locked
        write CLASSB_TIMEOUT_CYC 4294967295
        write LOC_ALERT6_EN 0",
    );
    assert_eq!(
        all[5..14],
        [
            "events:",
            "  LOC_ALERT5: 1 occurrence, at 6; 1 while its class was off, at 6",
            "equal wires: none",
            "switched on: LOC_ALERT5 at 2",
            "switched off: none",
            "shadow writes: 6 staged, 1 committed; dropped at 4, 6, 9; open at the end LOC_ALERT6_EN, CLASSB_TIMEOUT_CYC",
            "other refusals, by number:",
            "  3 (locked): 1 time, at 9",
            "  12 (second write differs): 1 time, at 6",
        ]
    );
}

/// Of many open stages the first are named.
#[test]
fn open_stages_beyond_those_that_are_kept_are_counted() {
    let writes: String = (0..12).map(|i| format!("write ALERT{i}_EN 1\n")).collect();
    let all = summary(&format!("alerts 12\n{writes}"));
    let line = &all[9];
    assert!(line.starts_with("shadow writes: 12 staged, 0 committed; dropped none; open"));
    assert!(
        line.ends_with(", ALERT7_EN and 1 more, then ALERT9_EN, ALERT10_EN, ALERT11_EN"),
        "{line}"
    );
}

/// What was switched off and on, the event meanwhile, the cut cable, and what each class is at the end.
#[test]
fn a_theft_without_a_start() {
    assert_eq!(
        of_example("switched-off"),
        "\
alerts: 2; records of 75 bytes, edition wires; ticks: 40
class A: no start; no clear
class B: no start; no clear
class C: no start; no clear
class D: no start; no clear
events:
  ALERT0: 1 event, at 20; 1 while disabled, at 20
equal wires:
  ALERT1: 29-34, 36-38
switched on: ALERT0 at 2, ALERT1 at 4, class A at 14, LOCK of class A at 14
switched off: ALERT0 at 17, class A at 19
switched on again: class A at 25, ALERT0 at 27
ping timer: off
escalation wires: at rest
shadow writes: 11 staged, 11 committed; dropped none; open at the end none
other refusals: none
at the end:
  class A: EN 1, LOCK 1, ACCUM_THRESH 0, not locked; Idle
  classes B, C, D: EN 0, LOCK 0, ACCUM_THRESH 0, not locked; Idle
"
    );
}

/// A class without a line takes no event, whatever its EN.
#[test]
fn a_class_without_a_line_is_off() {
    let all = summary(
        "alerts 1
        configure ALERT0_EN 1
        configure CLASSA_CTRL 0x1
        none wires 0=10",
    );
    let event = "  ALERT0: 1 event, at 5; 1 while its class was off, at 5";
    assert_eq!(all[6], event);
    let end = "  class A: EN 1, no line enabled, LOCK 0, ACCUM_THRESH 0, not locked; Idle";
    assert_eq!(all[all.len() - 2], end);
}

/// Every switch by its name: local alerts, lines, LOCK, interrupts; settings that are changed again.
#[test]
fn every_switch_has_its_name() {
    let all = summary(
        "alerts 1
        configure LOC_ALERT5_EN 1
        configure CLASSD_CTRL 0x3
        configure CLASSD_CTRL 0x31
        configure LOC_ALERT5_EN 0
        write INTR_ENABLE 9
        write INTR_ENABLE 1
        configure CLASSB_TIMEOUT_CYC 7
        configure CLASSB_TIMEOUT_CYC 8
        configure ALERT0_CLASS 3
        configure ALERT0_CLASS 0
        configure CLASSD_CTRL 0xf1",
    );
    assert_eq!(
        all[7..11],
        [
            "switched on: LOC_ALERT5 at 2, class D at 4, LOCK of class D at 4, interrupt A at 9, interrupt D at 9",
            "switched off: line 0 of class D at 4, line 1 of class D at 4, line 2 of class D at 4, line 3 of class D at 4, \
             LOCK of class D at 6, LOC_ALERT5 at 8, interrupt D at 10",
            "switched on again: line 2 of class D at 6, line 3 of class D at 6",
            "settings changed again: CLASSB_TIMEOUT_CYC at 14, ALERT0_CLASS at 18, CLASSD_CTRL at 20",
        ]
    );
}

/// A part of a trace: what began before it is told as it stands there, and what goes on after it as still on.
#[test]
fn a_part_of_a_trace() {
    let seal = example("broken-seal.trace");
    let of = |words: &[&str]| explained(&[&["--summary", &seal], words].concat(), &[]);
    let all = of(&["--from", "28", "--to", "31"]);
    assert_eq!(all[0], "alerts: 2; records of 24 bytes; ticks: 28 to 31");
    assert_eq!(all[1], "class A: Ph1 before 28; no start; no clear");
    assert_eq!(all[5], "events: none");
    let end = "  class A: EN 1, LOCK 1, ACCUM_THRESH 2, locked, clear locked; Phase 2, ACCUM_CNT 3";
    assert_eq!(all[all.len() - 2], end);
    let all = of(&["--to=28"]);
    assert_eq!(all[0], "alerts: 2; records of 24 bytes; ticks: 1 to 28");
    assert_eq!(all[3], "    line 0 24-26, line 1 from 27, still on at 28");
    let (all, said) = common::ended("explain", &["--summary", &seal, "--from", "38"], &[], 0);
    let all = String::from_utf8(all).expect("text");
    assert!(
        all.starts_with("alerts: 2; records of 24 bytes; ticks: none\n"),
        "{all}"
    );
    assert_eq!(said, ["--from 38: the trace has only 37 ticks"]);
    let cable = explained(
        &["--summary", &example("switched-off.trace"), "--to", "37"],
        &[],
    );
    assert_eq!(cable[8], "  ALERT1: 29-34, from 36, still equal at 37");
}
