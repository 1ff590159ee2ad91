//! `record --back`: a trace to its text, and round trips of both.
mod common;

use common::random;
use common::records::{
    all_at, apart, off_rest, record, record_248, record_64, record_pings, record_wires, start, REST,
};
use common::round::{goes_round, text_of, trace_of};
use common::{example, examples, given, refused};
use handler::{Edition, LinePairs, Wires};
use harness::rng::Rng;
use std::fs;

#[test]
fn the_words_of_each_record() {
    let bytes = [
        vec![2],
        record_64(2, 321, 0x393F, (0b1000_0100 << 56, u64::MAX >> 1)),
        record_64(1, 256, 0, REST),
        record_64(0, 0, 0, (0xF << 60, u64::MAX >> 4)),
        record_64(1, 1023, 0, (1, u64::MAX)),
        record_64(2, 333, 0xFFFF_FFFF, (0, 0)),
    ]
    .concat();
    let text = "\
edition 24
alerts 2
write CLASSA_CTRL 0x393f wires 0=10 5=11
read ALERT0_CAUSE
none wires 0-3=10
read 1023 wires 63=11
write 333 4294967295 wires 0-63=00
";
    assert_eq!(text_of(&bytes), text);
    assert_eq!(text_of(&[64]), "edition 24\nalerts 64\n");
}

#[test]
fn the_words_of_each_record_of_70_bytes() {
    let bytes = [
        vec![255, 248],
        record_248(2, 1281, 0x393F, off_rest(&[(0, 0b10), (247, 0b11)])),
        record_248(1, 1024 + 247, 0, Wires::REST),
        record_248(0, 0, 0, off_rest(&[(63, 0b10), (64, 0b10), (128, 0b00)])),
        record_248(1, 2047, 0, all_at(Edition::Alerts248, 0b00)),
        record_248(2, 321, 1, Wires::REST),
    ]
    .concat();
    let text = "\
edition 70
alerts 248
write CLASSA_CTRL 0x393f wires 0=10 247=11
read ALERT247_CAUSE
none wires 63-64=10 128=00
read 2047 wires 0-247=00
write ALERT65_REGWEN 1
";
    assert_eq!(text_of(&bytes), text);
    assert_eq!(text_of(&[255, 64]), "edition 70\nalerts 64\n");
}

#[test]
fn the_words_of_each_record_of_75_bytes() {
    let bytes = [
        vec![254, 248],
        record_pings(2, 6, 1, Wires::REST, (0x10_0003, 0)),
        record_pings(0, 0, 0, off_rest(&[(16, 0b10)]), (1, 0b1001)),
        record_pings(1, 4, 0, Wires::REST, (0, 0b0010)),
        record_pings(2, 5, 65535, off_rest(&[(247, 0b11)]), (u32::MAX, 15)),
        record_pings(0, 0, 0, Wires::REST, (0, 0)),
    ]
    .concat();
    let text = "\
edition pings
alerts 248
write PING_TIMER_EN 1 entropy 0x100003
none wires 16=10 entropy 0x1 answers 0 3
read PING_TIMER_REGWEN answers 1
write PING_TIMEOUT_CYC 65535 wires 247=11 entropy 0xffffffff answers 0 1 2 3
none
";
    assert_eq!(text_of(&bytes), text);
    assert_eq!(given("record", &["-"], text.as_bytes()), bytes);
    assert_eq!(text_of(&[254, 64]), "edition pings\nalerts 64\n");
}

#[test]
fn the_words_of_each_record_of_the_escalation_wires() {
    let pairs = |pos, neg| LinePairs { pos, neg };
    let bytes = [
        vec![253, 248],
        record_wires(2, 6, 1, Wires::REST, (0x10_0003, LinePairs::REST)),
        record_wires(0, 0, 0, off_rest(&[(16, 0b10)]), (1, pairs(0b1001, 0b0110))),
        record_wires(1, 4, 0, Wires::REST, (0, pairs(0b0010, 15))),
        record_wires(0, 0, 0, Wires::REST, (0, pairs(0, 0))),
    ]
    .concat();
    let text = "\
edition wires
alerts 248
write PING_TIMER_EN 1 entropy 0x100003
none wires 16=10 entropy 0x1 receive 0=10 3=10
read PING_TIMER_REGWEN receive 1=11
none receive 0-3=00
";
    assert_eq!(text_of(&bytes), text);
    assert_eq!(given("record", &["-"], text.as_bytes()), bytes);
    assert_eq!(text_of(&[253, 64]), "edition wires\nalerts 64\n");
}

/// A text that says `sound` has pairs in their place when it comes back.
#[test]
fn examples_go_round() {
    for name in examples("trace") {
        goes_round(&fs::read(example(&format!("{name}.trace"))).expect("the example"));
    }
    for name in examples("txt") {
        let text = fs::read_to_string(example(&format!("{name}.txt"))).expect("the example");
        let canonical: String = text
            .lines()
            .map(|line| line.split('#').next().unwrap_or(line).trim())
            .filter(|line| !line.is_empty())
            .map(|line| format!("{line}\n"))
            .collect();
        let back = text_of(&trace_of(&text, 0));
        match canonical.contains(" sound") {
            true => assert_eq!(back.lines().count(), canonical.lines().count()),
            false => assert_eq!(back, canonical),
        }
    }
}

#[test]
fn random_traces_go_round() {
    let mut rng = Rng::new(2);
    for edition in Edition::ALL {
        for _ in 0..60 {
            let bytes = random::trace(&mut rng, edition);
            let text = text_of(&bytes);
            assert_eq!(text.lines().count(), 2 + bytes.len() / edition.bytes());
            assert!(!text.contains("raw") && !text.contains("cut"));
            assert_eq!(trace_of(&text, 0), bytes);
        }
    }
}

/// Every register that a record has room for, read and written.
#[test]
fn every_register_goes_round() {
    for edition in Edition::ALL {
        let registers = 1 << edition.register_bits();
        let mut bytes = start(edition, edition.alerts() as u8);
        for register in 0..registers {
            bytes.extend(record(edition, 1, register, 0, Wires::REST));
            bytes.extend(record(edition, 2, register, register << 20, Wires::REST));
        }
        assert_eq!(given("record", &["-"], text_of(&bytes).as_bytes()), bytes);
    }
}

#[test]
fn a_text_is_no_trace() {
    for text in ["# a seal\nalerts 2\nnone\n", "edition 24\nalerts 2\n"] {
        let said = refused("record", &["--back", "-"], text.as_bytes());
        assert_eq!(
            said,
            "-: this is a text: ./tarravane record makes a trace of it"
        );
    }
}

/// A row of explain has the line of the text, after the tick's number: for wires that have room, and any in wide rows.
#[test]
fn explain_says_the_words_of_the_text() {
    for edition in Edition::ALL {
        let last = edition.alerts() - 1;
        let few = [
            Wires::REST,
            off_rest(&[(0, 0b10)]),
            off_rest(&[(last - 1, 0b11), (last, 0b11)]),
        ];
        explain_has_text(edition, &["-"], few);
        let many = [Wires::REST, apart(edition, 0b10), apart(edition, 0b00)];
        explain_has_text(edition, &["-", "--wide"], many);
    }
}

fn explain_has_text(edition: Edition, words: &[&str], wires: [Wires; 3]) {
    let mut bytes = start(edition, edition.alerts() as u8);
    for register in 0..1 << edition.register_bits() {
        let wires = wires[register as usize % 3];
        bytes.extend(record(edition, 1, register, 0, wires));
        // A write that is refused: nothing is counted, and the rows have room.
        bytes.extend(record(edition, 2, register, 0xFFFF_FFFF, Wires::REST));
        bytes.extend(record(edition, 0, 0, 0, wires));
    }
    let text = text_of(&bytes);
    let rows = String::from_utf8(given("explain", words, &bytes)).expect("text");
    let rows: Vec<&str> = rows.lines().skip(2).collect();
    assert_eq!(rows.len(), text.lines().count() - 2);
    for (number, (row, line)) in (1..).zip(rows.into_iter().zip(text.lines().skip(2))) {
        // A space after it in columns, a colon where the row left them.
        let rest = row.strip_prefix(&format!("{number:>6} {line}"));
        let parted = rest.map_or(false, |rest| rest.starts_with([' ', ':']));
        assert!(parted, "{row} is not of {line}");
    }
}
