//! `wave -o FILE.svg`: the pictures of the examples, and what every picture promises.
mod common;

use common::folder::Folder;
use common::ran::briefs;
use common::records::start;
use common::svg::{check_size, check_spans, spans, texts, MOST_BYTES};
use common::wave::{picture, wave};
use common::{ended, example, examples, given, xml};
use handler::Edition;
use harness::compare::{damage, generated};
use std::fs;

fn trace(name: &str) -> Vec<u8> {
    fs::read(example(&format!("{name}.trace"))).expect("the example")
}

#[test]
fn the_pictures_of_the_examples_are_those_that_are_stored() {
    let folder = Folder::new("pictures");
    assert_eq!(examples("svg"), examples("trace"));
    for name in examples("trace") {
        let to = folder.path("a.svg");
        given(
            "wave",
            &[&example(&format!("{name}.trace")), "-o", &to],
            &[],
        );
        let drawn = fs::read_to_string(&to).expect("the picture");
        xml::check(&drawn);
        let stored = fs::read_to_string(example(&format!("{name}.svg"))).expect("a picture");
        assert!(
            drawn == stored,
            "{name}: examples/draw draws the pictures anew"
        );
    }
}

#[test]
fn states_and_outputs_are_those_of_the_library() {
    for edition in Edition::ALL {
        for case in generated(edition, 21).take(9) {
            let bytes = case.bytes();
            let all = briefs(&bytes);
            let picture = picture(&bytes, &[]);
            check_spans(&picture, &all, 1, all.len() as u64);
            check_size(&picture);
        }
    }
}

#[test]
fn a_part_of_a_trace() {
    let bytes = generated(Edition::NEWEST, 3)
        .next()
        .expect("a case")
        .bytes();
    let all = briefs(&bytes);
    for (from, to) in [(1, 50), (100, 300), (57, 57)] {
        let words = ["--from", &from.to_string(), "--to", &to.to_string()];
        let (picture, _) = wave(&bytes, "svg", &words, 0);
        check_spans(&picture, &all, from, to);
    }
    let seal = picture(&trace("broken-seal"), &["--from", "12", "--to", "20"]);
    assert!(texts(&seal, "about")[0].ends_with("; ticks 1 to 20, shown from 12 to 20"));
    let made = format!("tarravane {}, edition 24", env!("CARGO_PKG_VERSION"));
    assert_eq!(texts(&seal, "about")[1..], [made]);
    let numbers: Vec<String> = (12..=20).map(|tick| tick.to_string()).collect();
    assert_eq!(texts(&seal, "number level"), numbers);
}

/// What happened: first event, start, phases, lines, clears.
#[test]
fn the_caption_answers() {
    let told = texts(&picture(&trace("broken-seal"), &[]), "told");
    assert_eq!(
        told,
        [
            "first event of an enabled alert: ALERT0 at 16",
            "class A: 1 start; clears accepted none, refused at 26",
            "start at 24 by ALERT0; locked, LOCK set; Ph0 24, Ph1 27, Ph2 30, Ph3 33, Term 36; \
             line 0 24-26, line 1 27-29, line 2 30-32, line 3 33-35",
            "classes B, C, D: no start; no clear",
            "other refusals: none",
        ]
    );
    let disabled = "alerts 3\nwrite ALERT2_EN 1\nwrite ALERT2_EN 1
        none wires 1=10\nnone wires 0=10 2=10\n";
    let disabled = given("record", &["-"], disabled.as_bytes());
    let told = texts(&picture(&disabled, &[]), "told");
    assert_eq!(told[0], "first event of an enabled alert: ALERT2 at 4");
    let none = picture(&start(Edition::NEWEST, 1), &[]);
    assert_eq!(texts(&none, "told")[0], "no event of an enabled alert");
}

/// The ping timer has a lane where it goes on, with a cross where a ping fails, and the caption tells of it.
#[test]
fn the_ping_timer_has_a_lane() {
    let picture = picture(&trace("stuck-sender"), &[]);
    let spans = spans(&picture, "ping timer");
    let spans: Vec<(&str, u64, u64)> = spans.iter().map(|(w, a, b)| (&w[..], *a, *b)).collect();
    assert_eq!(
        spans,
        [
            ("waits for the ping of ALERT1", 24, 26),
            ("ping of ALERT1 open", 27, 29),
            ("waits for the ping of line 0", 30, 30),
            ("ping of line 0 open", 31, 32),
            ("waits for the ping of ALERT0", 33, 34),
            ("ping of ALERT0 open", 35, 40),
            ("waits for the ping of line 1", 41, 49),
            ("ping of line 1 open", 50, 51),
            ("waits for the ping of ALERT0", 52, 53),
        ]
    );
    // One of the refused clear, one of the failed ping, and the legend's second.
    assert_eq!(marks(&picture, "cross"), 3);
    let told = texts(&picture, "told");
    let timer = "ping timer: on at 23; 4 pings: 3 answered, 1 failed";
    assert_eq!(told[4..6], [timer, "failed: ALERT0 at 40"]);
    let made = format!("tarravane {}, edition pings", env!("CARGO_PKG_VERSION"));
    assert_eq!(texts(&picture, "about")[1..], [made]);
    let lanes = texts(&picture, "lane");
    for lane in ["ALERT0 ping", "ALERT1 ping", "ping timer"] {
        assert!(lanes.contains(&lane.to_string()), "{lane}");
    }
    let off = common::wave::picture(&trace("far-alert"), &[]);
    assert!(!off.contains("ping"));
}

/// Below a line whose pairs move stand what is sent and what comes back, with a cross where that is wrong; the caption tells of it.
#[test]
fn the_lines_pairs_have_lanes() {
    let picture = picture(&trace("cut-cable"), &[]);
    let sent = [("on".to_string(), 29, 29), ("on".to_string(), 39, 41)];
    assert_eq!(spans(&picture, "pair 0"), sent);
    assert_eq!(spans(&picture, "back 0"), []);
    let came = [31, 33].map(|tick| ("(1,0)".to_string(), tick, tick));
    assert_eq!(spans(&picture, "back 1"), came);
    // Four wrong answers, the failed ping, the refused clear, and two more of the legend.
    assert_eq!(marks(&picture, "cross"), 8);
    let told = texts(&picture, "told");
    let wrong = "line 0: 4 wrong answers, first at 30: 01, not 10, last at 42";
    assert!(told.iter().any(|line| line == wrong), "{told:?}");
    assert!(texts(&picture, "small").contains(&"wrong answer".to_string()));
    let old = common::wave::picture(&trace("stuck-sender"), &[]);
    assert!(!old.contains("pair 0") && !old.contains("wrong answer"));
}

/// How often a mark is drawn, without the one of the legend.
fn marks(picture: &str, class: &str) -> usize {
    picture.matches(&format!("class=\"{class}\"")).count() - 1
}

/// Staged writes have a mark of their own, and the caption tells of stages that are dropped or stay open.
#[test]
fn staged_writes_are_told_apart() {
    let text = "alerts 1
        write LOC_ALERT5_EN 1
        write LOC_ALERT5_EN 1
        write CLASSA_ACCUM_THRESH 2
        write CLASSA_ACCUM_THRESH 3
        write CLASSA_CTRL 0x393f
        read CLASSA_CTRL
        write CLASSA_TIMEOUT_CYC 5
        write CLASSA_REGWEN 0";
    let picture = picture(&given("record", &["-"], text.as_bytes()), &[]);
    for (class, number) in [("staged", 4), ("write", 2), ("read", 1), ("cross", 1)] {
        assert_eq!(marks(&picture, class), number, "{class}");
    }
    let said = texts(&picture, "said");
    assert_eq!(said[0], "write LOC_ALERT5_EN 1: staged");
    assert_eq!(said[1], "write LOC_ALERT5_EN 1: committed");
    assert_eq!(said[4], "read CLASSA_CTRL: 0x393c, unstaged");
    assert_eq!(said[6], "write CLASSA_REGWEN 0");
    let refused = texts(&picture, "refused");
    assert_eq!(refused, ["write CLASSA_ACCUM_THRESH 3: differs"]);
    assert_eq!(texts(&picture, "lane")[..2], ["tick", "LOC_ALERT5"]);
    assert_eq!(
        texts(&picture, "told"),
        [
            "first event of an enabled alert: LOC_ALERT5 at 4",
            "classes A, B, C, D: no start; no clear",
            "events that started nothing: LOC_ALERT5: 1 occurrence, at 4; 1 while its class was off, at 4",
            "shadow writes: 4 staged, 1 committed; dropped at 4, 6; open at the end CLASSA_TIMEOUT_CYC",
            "other refusals: 12 (second write differs): 1 time, at 4",
        ]
    );
}

/// An event, one while disabled, equal wires for three ticks, and an alert that does nothing.
#[test]
fn alerts_that_rose_or_broke_have_lanes() {
    let text = "alerts 5
        write ALERT0_EN 1
        write ALERT0_EN 1
        write ALERT2_EN 1
        write ALERT2_EN 1
        write LOC_ALERT2_EN 1
        write LOC_ALERT2_EN 1
        none wires 0=10 1=10 2=11
        none wires 0=10 2=00
        none wires 2=11
        none";
    let trace = given("record", &["-"], text.as_bytes());
    let picture = picture(&trace, &[]);
    for (class, number) in [
        ("event", 1 + 3),
        ("disabled", 1),
        ("raised", 3),
        ("broken", 3),
        ("ack", 2),
        ("pause", 3),
    ] {
        assert_eq!(marks(&picture, class), number, "{class}");
    }
    let lanes = texts(&picture, "lane");
    let inputs = [
        "tick",
        "ALERT0",
        "ALERT1",
        "ALERT2",
        "LOC_ALERT2",
        "accesses",
    ];
    assert_eq!(lanes[..6], inputs);
    assert_eq!(
        texts(&picture, "still"),
        ["classes A, B, C, D: Idle; interrupts A, B, C, D: off; lines 0, 1, 2, 3: off"]
    );
    let all = given("record", &["-"], b"alerts 9\nnone wires 0-8=10\n");
    let lanes = texts(&common::wave::picture(&all, &[]), "lane");
    assert_eq!(lanes[8..10], ["ALERT7", "1 more alert"]);
}

#[test]
fn each_refusal_is_told_in_red() {
    let picture = picture(&trace("refused-accesses"), &[]);
    let refused = texts(&picture, "refused");
    assert_eq!(refused.len(), 9);
    assert_eq!(refused[0], "read 333: no register");
    assert_eq!(refused[4], "write CLASSA_REGWEN 0: threshold");
    assert_eq!(refused[8], "kind 3: malformed");
    for (class, number) in [("cross", 9), ("write", 5), ("staged", 5), ("read", 1)] {
        assert_eq!(marks(&picture, class), number, "{class}");
    }
    let said = texts(&picture, "said");
    assert_eq!(said.len(), 11);
    assert_eq!(said[10], "read CLASSA_ACCUM_CNT: 1");
}

/// Whatever the bytes, there is a picture, and it is well-formed.
#[test]
fn damaged_traces_have_a_picture() {
    for edition in Edition::ALL {
        for case in damage(edition, 31).take(20) {
            let bytes = case.bytes();
            let status = common::round::status(&bytes);
            let (picture, said) = wave(&bytes, "svg", &[], status);
            xml::check(&picture);
            assert!(picture.len() < MOST_BYTES);
            assert_eq!(said.len(), status as usize);
            assert_eq!(texts(&picture, "bad"), said);
        }
    }
    let (none, _) = wave(&[], "svg", &[], 1);
    assert!(texts(&none, "bad")[0].starts_with("refused: the trace is empty"));
}

/// A cut after the last tick that is shown is not read.
#[test]
fn what_is_not_read_is_not_judged() {
    let seal = trace("broken-seal");
    let (_, said) = wave(&seal[..seal.len() - 1], "svg", &["--to", "36"], 0);
    assert!(said.is_empty());
    let (picture, said) = wave(&seal[..seal.len() - 1], "svg", &["--from", "36"], 1);
    assert_eq!(texts(&picture, "bad"), said);
    let (picture, said) = wave(&seal, "svg", &["--from", "38"], 0);
    assert_eq!(said, ["--from 38: the trace has only 37 ticks"]);
    assert!(texts(&picture, "about")[0].ends_with("; ticks 1 to 37, none shown"));
}

#[test]
fn names_stay_text() {
    let folder = Folder::new("picture-names");
    for (name, shown) in [
        (
            "<script>&\"'.trace",
            "&lt;script&gt;&amp;&quot;&apos;.trace".to_string(),
        ),
        (
            "a\u{1}\nb\u{FFFF}",
            "a\u{FFFD}\u{FFFD}b\u{FFFD}".to_string(),
        ),
        (&"ö".repeat(100), "ö".repeat(50) + ".."),
    ] {
        let (from, to) = (folder.path(name), folder.path("a.svg"));
        fs::write(&from, trace("broken-seal")).expect("a trace");
        let (_, said) = ended("wave", &[&from, "-o", &to], &[], 0);
        assert!(said.is_empty());
        let picture = fs::read_to_string(&to).expect("the picture");
        xml::check(&picture);
        assert_eq!(texts(&picture, "title"), [shown]);
    }
}

/// What never moves takes one line together, and what ends the picture before the trace is still on.
#[test]
fn what_never_moves_takes_one_line() {
    let picture = picture(&trace("broken-seal"), &["--to", "28"]);
    let lanes = [
        "tick",
        "ALERT0",
        "class A",
        "line 0",
        "line 1",
        "accesses",
        "all the time",
    ];
    assert_eq!(texts(&picture, "lane"), lanes);
    let still = "classes B, C, D: Idle; interrupts A, B, C, D: off; lines 2, 3: off";
    assert_eq!(texts(&picture, "still"), [still]);
    let told = texts(&picture, "told");
    assert!(
        told[2].ends_with("; line 0 24-26, line 1 from 27, still on at 28"),
        "{}",
        told[2]
    );
}

/// The theft without an escalation is told above its picture.
#[test]
fn the_caption_tells_what_was_switched_off() {
    let told = texts(&picture(&trace("switched-off"), &[]), "told");
    assert_eq!(
        told,
        [
            "no event of an enabled alert",
            "classes A, B, C, D: no start; no clear",
            "events that started nothing: ALERT0: 1 event, at 20; 1 while disabled, at 20",
            "equal wires: ALERT1: 29-34, 36-38",
            "switched off: ALERT0 at 17, class A at 19",
            "switched on again: class A at 25, ALERT0 at 27",
            "other refusals: none",
        ]
    );
}
