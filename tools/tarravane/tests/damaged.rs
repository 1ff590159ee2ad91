//! Traces that are damaged have a text too: `raw`, `cut` and any N.
mod common;

use common::random;
use common::records::{off_rest, record, record_248, record_64, record_pings, start, REST};
use common::round::{goes_round, trace_of};
use common::{ended, example, examples, given, refused, said_of};
use handler::registers::Setting;
use handler::{Edition, Wires};
use harness::rng::Rng;
use std::fs;

/// Bytes as hex digits.
fn hex(bytes: &[u8]) -> String {
    bytes.iter().map(|byte| format!("{byte:02x}")).collect()
}

/// A well-formed record: a read of class A's CTRL.
fn read_ctrl(edition: Edition) -> Vec<u8> {
    let ctrl = edition.registers().class(0, Setting::Ctrl);
    record(edition, 1, ctrl.into(), 0, Wires::REST)
}

#[test]
fn any_bytes_go_round() {
    let mut rng = Rng::new(3);
    for length in 0..=300 {
        let bytes = random::bytes(&mut rng, length);
        goes_round(&bytes);
        // The same after each mark, and with an N that is taken.
        goes_round(&[&[255], &bytes[..]].concat());
        goes_round(&[&[254], &bytes[..]].concat());
        goes_round(&[&[253], &bytes[..]].concat());
        let edition = rng.pick(&Edition::ALL);
        let n = 1 + rng.index(edition.alerts()) as u8;
        goes_round(&[start(edition, n), bytes].concat());
    }
}

/// A real trace with a few bits flipped, bytes lost in the middle and an end that is cut.
#[test]
fn damaged_traces_go_round() {
    let mut rng = Rng::new(4);
    for name in examples("trace") {
        let whole = fs::read(example(&format!("{name}.trace"))).expect("the example");
        for _ in 0..60 {
            let mut bytes = whole.clone();
            for _ in 0..rng.below(6) {
                let at = rng.index(bytes.len());
                bytes[at] ^= 1 << rng.below(8);
            }
            for _ in 0..rng.below(3) {
                bytes.remove(rng.index(bytes.len()));
            }
            bytes.truncate(bytes.len() - rng.index(80));
            goes_round(&bytes);
        }
    }
}

/// The records of an edition that are not well-formed, each in another way.
fn malformed(edition: Edition) -> Vec<Vec<u8>> {
    let ctrl = u64::from(edition.registers().class(0, Setting::Ctrl));
    let last = (1 << edition.register_bits()) - 1;
    let rest = |kind, register, value| record(edition, kind, register, value, Wires::REST);
    let mut bad = vec![
        rest(3, 0, 0),
        record(edition, 3, last, 0xFFFF_FFFF, off_rest(&[(0, 0b10)])),
        rest(1, ctrl, 1),
        rest(1, ctrl, 1 << 31),
        rest(0, 1, 0),
        rest(0, last, 0),
        rest(0, 0, 1),
    ];
    let zeros = 32..32 + edition.zero_bits();
    bad.extend(zeros.clone().map(|bit| rest(2, ctrl, 1 << bit)));
    bad.extend(zeros.map(|bit| rest(0, 0, 1 << bit)));
    if edition == Edition::Pings {
        // The zero bits before the answers.
        bad.extend((4..8).map(|bit| {
            let mut record = record_pings(0, 0, 0, Wires::REST, (7, 15));
            record[74] |= 1 << bit;
            record
        }));
    }
    bad
}

#[test]
fn a_record_that_is_not_well_formed_is_raw() {
    for (edition, zeros, last) in [
        (Edition::Alerts64, 20, 0),
        (Edition::Alerts248, 19, 0),
        (Edition::Pings, 19, 4),
        (Edition::Wires, 19, 0),
    ] {
        let (good, all) = (read_ctrl(edition), malformed(edition));
        assert_eq!(all.len(), 7 + 2 * zeros + last);
        for bad in all {
            let hex = hex(&bad);
            let bytes = [start(edition, 1), good.clone(), bad, good.clone()].concat();
            let line = "read CLASSA_CTRL\n";
            let head = format!("edition {}\nalerts 1\n", edition.name());
            let text = format!("{head}{line}raw {hex}\n{line}");
            assert_eq!(given("record", &["--back", "-"], &bytes), text.as_bytes());
            assert_eq!(given("record", &["-"], text.as_bytes()), bytes);
        }
    }
}

#[test]
fn a_cut_end_is_told_and_written() {
    for edition in Edition::ALL {
        let good = read_ctrl(edition);
        for rest in 1..edition.bytes() {
            let bytes = [&start(edition, 1)[..], &good, &good[..rest]].concat();
            let (text, said) = ended("record", &["--back", "-"], &bytes, 1);
            let head = format!("edition {}\nalerts 1\n", edition.name());
            let wanted = format!("{head}read CLASSA_CTRL\ncut {}\n", hex(&good[..rest]));
            assert_eq!(String::from_utf8_lossy(&text), wanted);
            let bytes_left = if rest == 1 { "byte" } else { "bytes" };
            let why = format!("cut: {rest} {bytes_left} after tick 1, too few for a record");
            assert_eq!(said, [why]);
            assert_eq!(trace_of(&wanted, 1), bytes);
        }
    }
}

/// The trace has this text, the text gives the trace, and both say why it is refused.
fn is_refused(bytes: Vec<u8>, text: &str, why: &str) {
    let why = format!("refused: {why}");
    let (written, said) = ended("record", &["--back", "-"], &bytes, 1);
    assert_eq!(String::from_utf8_lossy(&written), text);
    assert_eq!(said, [&why[..]]);
    let (again, said) = ended("record", &["-"], text.as_bytes(), 1);
    assert_eq!(again, bytes);
    assert_eq!(said, [why]);
}

#[test]
fn a_trace_without_a_handler_is_told_and_written() {
    let empty = "the trace is empty: it begins with the number of alerts";
    is_refused(vec![], "", empty);
    let asks = |n, bytes, most| {
        format!("the trace asks for {n} alerts: records of {bytes} bytes are for 1 to {most}")
    };
    is_refused(vec![0], "edition 24\nalerts 0\n", &asks(0, 24, 64));
    let none = [vec![65], record_64(0, 0, 0, REST)].concat();
    let text = "edition 24\nalerts 65\nnone\n";
    is_refused(none, text, &asks(65, 24, 64));
    let ends = "the trace ends after 255: the number of alerts comes next";
    is_refused(vec![255], "edition 70\n", ends);
    let text = "edition 70\nalerts 0\n";
    is_refused(vec![255, 0], text, &asks(0, 70, 248));
    let none = [vec![255, 249], record_248(0, 0, 0, Wires::REST)].concat();
    let text = "edition 70\nalerts 249\nnone\n";
    is_refused(none, text, &asks(249, 70, 248));
    let ends = "the trace ends after 254: the number of alerts comes next";
    is_refused(vec![254], "edition pings\n", ends);
    let none = [vec![254, 249], record_pings(0, 0, 0, Wires::REST, (9, 1))].concat();
    let text = "edition pings\nalerts 249\nnone entropy 0x9 answers 0\n";
    is_refused(none, text, &asks(249, 75, 248));
    let ends = "the trace ends after 253: the number of alerts comes next";
    is_refused(vec![253], "edition wires\n", ends);
    let none = [start(Edition::Wires, 0), read_ctrl(Edition::Wires)].concat();
    let text = "edition wires\nalerts 0\nread CLASSA_CTRL\n";
    is_refused(none, text, &asks(0, 75, 248));
}

#[test]
fn a_missing_trace_is_told() {
    refused("record", &["--back"], &[]);
    refused("record", &["--back", "missing.trace"], &[]);
}

/// Any N has a trace; that no handler is made for it is said.
#[test]
fn an_n_that_is_refused_is_written() {
    for (edition, all, last) in [
        (Edition::Alerts64, [0, 65, 252], 63),
        (Edition::Alerts248, [0, 249, 255], 247),
        (Edition::Pings, [0, 254, 255], 247),
        (Edition::Wires, [0, 249, 253], 247),
    ] {
        let (bytes, name) = (edition.bytes(), edition.name());
        for n in all {
            let text = format!("edition {name}\nalerts {n}\nnone wires {last}=10\n");
            let (trace, said) = ended("record", &["-"], text.as_bytes(), 1);
            let none = record(edition, 0, 0, 0, off_rest(&[(last, 0b10)]));
            assert_eq!(trace, [start(edition, n), none].concat());
            let most = edition.alerts();
            assert_eq!(
                said,
                [format!("refused: the trace asks for {n} alerts: records of {bytes} bytes are for 1 to {most}")]
            );
        }
    }
}

/// A text without a line, or with no more than its edition, has no N.
#[test]
fn a_text_without_n_gives_what_comes_before_it() {
    for (text, bytes, why) in [
        (
            "",
            &[][..],
            "the trace is empty: it begins with the number of alerts",
        ),
        (
            "\n# nothing\n",
            &[],
            "the trace is empty: it begins with the number of alerts",
        ),
        (
            "edition 24\n",
            &[],
            "the trace is empty: it begins with the number of alerts",
        ),
        (
            "edition 70\n# nothing\n",
            &[255],
            "the trace ends after 255: the number of alerts comes next",
        ),
        (
            "edition pings\n",
            &[254],
            "the trace ends after 254: the number of alerts comes next",
        ),
        (
            "edition wires\n",
            &[253],
            "the trace ends after 253: the number of alerts comes next",
        ),
    ] {
        let (trace, said) = ended("record", &["-"], text.as_bytes(), 1);
        assert_eq!(trace, bytes);
        assert_eq!(said, [format!("refused: {why}")]);
    }
}

#[test]
fn bytes_of_a_text_are_passed_as_they_are() {
    for edition in Edition::ALL {
        let bad = record(edition, 3, 5, 7, Wires::REST);
        let good = read_ctrl(edition);
        let upper = |bytes: &[u8]| hex(bytes).to_uppercase();
        let text = format!(
            "edition {}\nalerts 1\nnone\nraw {} # damaged\nraw {}\nread CLASSA_CTRL\ncut {}\n\n# the end\n",
            edition.name(),
            upper(&bad),
            upper(&good),
            upper(&good[..5])
        );
        let none = record(edition, 0, 0, 0, Wires::REST);
        let wanted = [
            &start(edition, 1)[..],
            &none,
            &bad,
            &good,
            &good,
            &good[..5],
        ]
        .concat();
        let (trace, said) = ended("record", &["-"], text.as_bytes(), 1);
        assert_eq!(trace, wanted);
        assert_eq!(said, ["cut: the text ends by cut, and so does the trace"]);
    }
}

#[test]
fn nothing_follows_a_cut() {
    for after in ["none", "cut 00", "raw 00"] {
        let text = format!("alerts 1\ncut 0011\n\n{after}\n");
        let said = said_of(text);
        assert!(said.starts_with("line 4: "), "{said}");
    }
    assert_eq!(
        said_of("alerts 1\ncut 00\nnone\n"),
        "line 3: nothing follows cut"
    );
    assert_eq!(
        said_of("cut 00\n"),
        "line 1: a text begins with alerts N, not with cut"
    );
}
