//! What is particular to an edition of a trace, and what is the same in all.
mod common;

use common::records::{apart, configure, off_rest, record, record_248, record_64, start, REST};
use common::round::{goes_round, text_of};
use common::{example, explained, given, said_of};
use handler::{Edition, Wires};
use std::fs;

/// The rows of a trace, without the two lines above them.
fn rows(bytes: &[u8]) -> Vec<String> {
    explained(&["-"], bytes)[2..].to_vec()
}

#[test]
fn the_title_names_the_edition() {
    let title = |words: &[&str], bytes: &[u8]| explained(words, bytes)[0].clone();
    for (bytes, said) in [
        (&[64][..], "alerts: 64; records of 24 bytes"),
        (&[255, 64], "alerts: 64; records of 70 bytes"),
        (&[255, 248], "alerts: 248; records of 70 bytes"),
        (
            &[254, 248],
            "alerts: 248; records of 75 bytes, edition pings",
        ),
        (
            &[253, 248],
            "alerts: 248; records of 75 bytes, edition wires",
        ),
    ] {
        assert_eq!(
            title(&["-"], bytes),
            format!("{said}; a class: its state, then ESC_CNT/ACCUM_CNT")
        );
        assert_eq!(
            title(&["-", "--summary"], bytes),
            format!("{said}; ticks: 0")
        );
    }
}

/// The same ticks in every edition have the same rows; a summary of one with a ping timer says that it is off.
#[test]
fn editions_differ_in_their_title_alone() {
    let old = fs::read(example("broken-seal.trace")).expect("the example");
    let text = String::from_utf8(given("record", &["--back", "-"], &old)).expect("text");
    for (name, bytes) in [("70", 70), ("pings", 75)] {
        let text = text.replace("edition 24", &format!("edition {name}"));
        let new = given("record", &["-"], text.as_bytes());
        assert_eq!(new.len(), 2 + bytes * 37);
        for words in [&["-"][..], &["-", "--summary"], &["-", "--only-changes"]] {
            let [old, mut new] = [&old, &new].map(|bytes| explained(words, bytes));
            assert_ne!(old[0], new[0]);
            if let Some(at) = new.iter().position(|line| line == "ping timer: off") {
                assert_eq!((name, words.len(), words[1]), ("pings", 2, "--summary"));
                new.remove(at);
            }
            assert_eq!(old[1..], new[1..]);
        }
    }
}

/// An old number that is unassigned reaches no register of today.
#[test]
fn old_numbers_are_the_old_ones() {
    let bytes = [
        vec![64],
        record_64(1, 512, 0, REST),
        record_64(1, 1023, 0, REST),
        record_64(1, 321, 0, REST),
    ]
    .concat();
    let rows = rows(&bytes);
    assert!(rows[0].contains("read 512                        refused: no register"));
    assert!(rows[1].contains("read 1023                       refused: no register"));
    assert!(rows[2].contains("read CLASSA_CTRL                0x393c"));
}

/// The last alert of all, by its registers, its wires, its cause and its class.
#[test]
fn the_far_alert_is_told() {
    let raised = off_rest(&[(247, 0b10)]);
    let bytes = [
        vec![255, 248],
        configure(Edition::Alerts248, 512 + 247, 1),
        configure(Edition::Alerts248, 768 + 247, 1),
        configure(Edition::Alerts248, 1296 + 1, 0x393F),
        record_248(0, 0, 0, raised),
        record_248(1, 1024 + 247, 0, apart(Edition::Alerts248, 0b11)),
    ]
    .concat();
    let rows = rows(&bytes);
    for (row, words) in rows.iter().zip([
        &["write ALERT247_EN 1 ", "staged"][..],
        &["write ALERT247_EN 1 ", "committed"],
        &["write ALERT247_CLASS 1 ", "staged"],
        &["write ALERT247_CLASS 1 ", "committed"],
        &["write CLASSB_CTRL 0x393f ", "staged"],
        &["write CLASSB_CTRL 0x393f ", "committed"],
        &["none wires 247=10 ", "---- 0---", "Ph0 1/1", "ALERT247"],
        &["read ALERT247_CAUSE wires ~124 ", " 1 "],
    ]) {
        words
            .iter()
            .for_each(|word| assert!(row.contains(word), "{row}"));
    }
}

/// Names are the same in the old edition, numbers are its own.
#[test]
fn each_line_of_edition_24_is_a_record_of_24_bytes() {
    let text = "
        # a comment, and a blank line

        edition 24  # before N
        alerts 64
        write CLASSA_CTRL 0x393f wires 0=10 5=11
        read ALERT0_CAUSE
        none wires 0-3=10
        read 1023#at once
        write 321 1
        write 0 4294967295 wires 63=00
    ";
    let top = |alert: u64| 1 << (63 - alert);
    let wanted = [
        vec![64],
        record_64(2, 321, 0x393F, (top(0) | top(5), !top(0))),
        record_64(1, 256, 0, REST),
        record_64(0, 0, 0, (0xF << 60, u64::MAX >> 4)),
        record_64(1, 1023, 0, REST),
        record_64(2, 321, 1, REST),
        record_64(2, 0, 0xFFFF_FFFF, (0, !1)),
    ]
    .concat();
    assert_eq!(given("record", &["-"], text.as_bytes()), wanted);
}

/// What a record of 24 bytes has no room for is told as the proved writer's refusal is.
#[test]
fn a_bad_line_of_edition_24_is_told() {
    for (line, problem) in [
        ("read 1024", "no record holds register 1024"),
        ("write 65535 1", "no record holds register 65535"),
        (
            "read ALERT64_EN",
            "no such register: ALERT64_EN (nearest: ALERT4_EN, ALERT6_EN, ALERT14_EN)",
        ),
        ("none wires 64=10", "no such alert, 0 to 63: 64"),
        (
            "raw 00",
            "raw wants 48 hex digits, the 24 bytes of a record",
        ),
        (
            "cut",
            "cut wants 2 to 46 hex digits, two for each of 1 to 23 bytes",
        ),
    ] {
        let said = said_of(format!("edition 24\nalerts 2\nnone\n{line}\nnone\n"));
        assert_eq!(said, format!("line 4: {problem}"));
    }
}

/// A number that was unassigned in the old edition is shown as that number, also where the newest has a register there.
#[test]
fn a_number_has_the_name_of_its_edition() {
    for (number, old, new) in [
        (64, "ALERT0_REGWEN", "64"),
        (256, "ALERT0_CAUSE", "ALERT0_REGWEN"),
        (321, "CLASSA_CTRL", "ALERT65_REGWEN"),
        (384, "384", "ALERT128_REGWEN"),
        (512, "512", "ALERT0_EN"),
        (1015, "1015", "ALERT247_CLASS"),
        (1023, "1023", "1023"),
        (5, "5", "5"),
    ] {
        for (edition, name) in [(Edition::Alerts64, old), (Edition::Alerts248, new)] {
            let read = record(edition, 1, number, 0, Wires::REST);
            let bytes = [start(edition, 64), read].concat();
            let text = text_of(&bytes);
            assert_eq!(text.lines().last(), Some(&*format!("read {name}")));
            goes_round(&bytes);
        }
    }
}

#[test]
fn a_bad_edition_is_told() {
    for (text, problem) in [
        (
            "edition 25\nalerts 2",
            "line 1: edition wants a name: 24, 70, pings, wires, not 25",
        ),
        (
            "edition 75\nalerts 2",
            "line 1: edition wants a name: 24, 70, pings, wires, not 75",
        ),
        (
            "edition 24\n\nalerts",
            "line 3: alerts wants a number: 1 to 64, or another byte for a trace that is refused",
        ),
        (
            "edition 24\nnone",
            "line 2: a text begins with alerts N, not with none",
        ),
        (
            "edition 24\nedition 24\nalerts 2",
            "line 2: one edition, and it stands first",
        ),
        (
            "edition 24\nalerts 255",
            "line 2: a first byte of 255 is that of edition 70",
        ),
        (
            "edition 24\nalerts 254",
            "line 2: a first byte of 254 is that of edition pings",
        ),
        (
            "edition 24\nalerts 253",
            "line 2: a first byte of 253 is that of edition wires",
        ),
        (
            "edition pings\nalerts 2\nnone receive 0=10",
            "line 3: edition pings has no receive",
        ),
        (
            "edition pings\nalerts 2\nnone sound",
            "line 3: edition pings has no sound",
        ),
        (
            "alerts 2\nnone answers 1",
            "line 2: edition wires has no answers",
        ),
        (
            "edition 70\nalerts 2\nnone entropy 1",
            "line 3: edition 70 has no entropy",
        ),
        (
            "edition 24\nalerts 2\nnone answers 1",
            "line 3: edition 24 has no answers",
        ),
        (
            "edition 70\nalerts 2\nread PING_TIMER_EN",
            "line 3: no such register: PING_TIMER_EN",
        ),
        (
            "alerts 2\nedition 24",
            "line 2: none, read, write, raw or cut is wanted, not edition",
        ),
    ] {
        assert_eq!(said_of(text), problem);
    }
}
