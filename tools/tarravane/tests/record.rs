//! `record` as a harbour office runs it: a text to a trace.
mod common;

use common::folder::Folder;
use common::records::{all_at, off_rest, record, record_248, record_pings};
use common::{ended, example, examples, given, refused, said_of};
use handler::{Edition, Wires};
use std::fs;

fn trace_of(text: &str) -> Vec<u8> {
    given("record", &["-"], text.as_bytes())
}

/// A first line that is good, then this one.
fn said_of_line(line: &str) -> String {
    said_of(format!("alerts 2\n{line}\nnone\n"))
}

#[test]
fn the_example_texts_give_the_example_traces() {
    for name in examples("txt") {
        let [text, trace] = ["txt", "trace"].map(|end| example(&format!("{name}.{end}")));
        let trace = fs::read(trace).expect("the example");
        let (recorded, said) = ended("record", &[&text], &[], 0);
        assert!(said.is_empty(), "{said:?}");
        assert_eq!(recorded, trace);
    }
}

/// Without its edition a text is of the newest.
#[test]
fn each_line_is_a_record() {
    let text = "
        # a comment, and a blank line

        alerts 248  # N
        write CLASSA_CTRL 0x393f wires 0=10 5=11 247=00
        read ALERT247_CAUSE
        none wires 0-3=10
        read 2047#at once
        write 0 4294967295 wires 0-247=00
    ";
    let range: Vec<(usize, u8)> = (0..=3).map(|i| (i, 0b10)).collect();
    let some = off_rest(&[(0, 0b10), (5, 0b11), (247, 0b00)]);
    let wanted = [
        vec![255, 248],
        record_248(2, 1281, 0x393F, some),
        record_248(1, 1271, 0, Wires::REST),
        record_248(0, 0, 0, off_rest(&range)),
        record_248(1, 2047, 0, Wires::REST),
        record_248(2, 0, 0xFFFF_FFFF, all_at(Edition::Alerts248, 0b00)),
    ]
    .concat();
    assert_eq!(trace_of(&format!("edition 70\n{text}")), wanted);
    // The newer ones have five bytes more, the last of them the answers or, of the newest, the receive pairs.
    let grown = |mark: u8, last: u8| {
        let records = wanted[2..].chunks(70);
        let grown = records.flat_map(|record| [record, &[0, 0, 0, 0, last]].concat());
        [mark, 248].into_iter().chain(grown).collect::<Vec<u8>>()
    };
    let newest = grown(253, 0b0101_0101);
    assert_eq!(trace_of(text), newest);
    assert_eq!(trace_of(&format!("edition wires\n{text}")), newest);
    assert_eq!(trace_of(&format!("edition pings\n{text}")), grown(254, 0));
}

/// What the ping timer is given, in any order after the access.
#[test]
fn a_line_has_entropy_and_answers() {
    let text = "
        edition pings
        alerts 2
        write PING_TIMER_EN 1 entropy 0x10003
        none answers 3 0 wires 1=10 entropy 1
        read PING_TIMEOUT_CYC_SHADOWED answers 2
    ";
    let wanted = [
        vec![254, 2],
        record_pings(2, 6, 1, Wires::REST, (0x1_0003, 0)),
        record_pings(0, 0, 0, off_rest(&[(1, 0b10)]), (1, 0b1001)),
        record_pings(1, 5, 0, Wires::REST, (0, 0b0100)),
    ]
    .concat();
    assert_eq!(trace_of(text), wanted);
    for (line, problem) in [
        ("none entropy", "entropy wants a word of 32 bits"),
        ("none receive 4=10", "no such line, 0 to 3: 4"),
        ("none receive", "receive wants E=PQ or E-F=PQ"),
        ("none sound 1", "unexpected: 1"),
        ("none entropy 1 entropy 1", "entropy stands twice"),
        ("none wires 0=10 answers 1", "edition wires has no answers"),
    ] {
        assert_eq!(said_of_line(line), format!("line 2: {problem}"));
    }
}

#[test]
fn no_ticks_are_a_trace_too() {
    assert_eq!(trace_of("alerts 248"), [253, 248]);
    assert_eq!(trace_of("alerts 1\n\n# nothing\n"), [253, 1]);
    assert_eq!(trace_of("edition pings\nalerts 1"), [254, 1]);
    assert_eq!(trace_of("edition 70\nalerts 64"), [255, 64]);
    assert_eq!(trace_of("edition 24\nalerts 64"), [64]);
}

#[test]
fn line_ends_and_spaces_make_no_difference() {
    let wanted = trace_of("alerts 2\nread CLASSA_STATE wires 1=11\nnone\n");
    for text in [
        "alerts 2\r\nread CLASSA_STATE wires 1=11\r\nnone\r\n",
        "alerts 2\nread CLASSA_STATE wires 1=11\nnone",
        "\u{FEFF}alerts 2\r\n\r\nread\tCLASSA_STATE   wires 1=11 \r\nnone\r",
        "alerts 2#\r\nread 1292 wires 1=11# \u{e9}\0\r\nnone #",
    ] {
        assert_eq!(trace_of(text), wanted, "{text:?}");
    }
    let latin_1 = b"# caf\xE9\nalerts 2\nread CLASSA_STATE wires 1=11 # \xFF\nnone\n";
    assert_eq!(given("record", &["-"], latin_1), wanted);
}

#[test]
fn a_bad_first_line_is_told() {
    let number = "alerts wants a number: 1 to 248, or another byte for a trace that is refused";
    for (text, problem) in [
        (
            "\nnone",
            "line 2: a text begins with alerts N, not with none".to_string(),
        ),
        ("alerts", format!("line 1: {number}")),
        ("\n\nalerts 256", format!("line 3: {number}, not 256")),
        ("alerts two", format!("line 1: {number}, not two")),
        ("alerts 2 none", "line 1: unexpected: none".to_string()),
    ] {
        assert_eq!(said_of(text), problem);
    }
}

/// What counts for nothing is written, and warned of.
#[test]
fn alerts_at_n_and_above_are_warned_of() {
    for (edition, last, register) in [
        (Edition::Alerts64, 63, 319),
        (Edition::Alerts248, 247, 1271),
    ] {
        let bytes = edition.bytes();
        let text = format!(
            "edition {bytes}\nalerts 2\nnone wires 1=10 5=01\nread ALERT2_EN wires 2-9=11\nwrite {register} 1\nread 1023\n"
        );
        let (trace, said) = ended("record", &["-"], text.as_bytes(), 0);
        assert_eq!(trace.len() / bytes, 4);
        assert_eq!(
            said,
            [
                "line 4: alerts is 2: ALERT2_EN is no register, the wires of alert 2 count for nothing"
                    .to_string(),
                format!("line 5: alerts is 2: ALERT{last}_CAUSE is no register"),
            ]
        );
    }
    let many = format!("alerts 247\n{}", "none wires 247=00\n".repeat(14));
    let (_, said) = ended("record", &["-"], many.as_bytes(), 0);
    assert_eq!(said.len(), 11);
    assert_eq!(
        said[9],
        "line 11: alerts is 247: the wires of alert 247 count for nothing"
    );
    assert_eq!(said[10], "4 more lines of such alerts");
}

#[test]
fn a_bad_line_is_told_by_its_number() {
    let value = "not a value from 0 to 4294967295";
    let pair = "I=PQ or I-J=PQ";
    let levels = "=00, =01, =10 or =11 is wanted";
    for (line, problem) in [
        (
            "alerts 2",
            "none, read, write, raw or cut is wanted, not alerts".to_string(),
        ),
        (
            "READ 1",
            "none, read, write, raw or cut is wanted, not READ".to_string(),
        ),
        (
            "wires 0=10",
            "none, read, write, raw or cut is wanted, not wires".to_string(),
        ),
        ("read", "read wants a register".to_string()),
        ("write", "write wants a register".to_string()),
        (
            "write CLASSA_CTRL",
            "write wants a register and a value".to_string(),
        ),
        (
            "read CLASSA_CTL",
            "no such register: CLASSA_CTL (nearest: CLASSA_CTRL)".to_string(),
        ),
        (
            "read ALERT248_EN",
            "no such register: ALERT248_EN (nearest: ALERT24_EN, ALERT28_EN, ALERT48_EN)"
                .to_string(),
        ),
        ("read 65536", "no such register: 65536".to_string()),
        ("read -1", "no such register: -1".to_string()),
        (
            "read CLASSA\0CTRL",
            "no such register: CLASSA\\0CTRL (nearest: CLASSA_CTRL)".to_string(),
        ),
        ("read 2048", "no record holds register 2048".to_string()),
        (
            "write 65535 1",
            "no record holds register 65535".to_string(),
        ),
        ("write 1 4294967296", format!("{value}: 4294967296")),
        ("write 1 0x100000000", format!("{value}: 0x100000000")),
        ("write 1 two", format!("{value}: two")),
        ("write 1 wires 0=10", format!("{value}: wires")),
        ("read 1 0", "unexpected: 0".to_string()),
        (
            "none\rnone",
            "none, read, write, raw or cut is wanted, not none\\rnone".to_string(),
        ),
        ("none wires", format!("wires wants {pair}")),
        ("none wires 0", format!("{levels}: 0")),
        ("none wires 0=2", format!("{levels}: 0=2")),
        ("none wires x=10", format!("{pair} is wanted, not x=10")),
        ("none wires 0 = 10", format!("{levels}: 0")),
        (
            "none wires 0\u{2013}3=10",
            format!("{pair} is wanted, not 0\u{2013}3=10"),
        ),
        (
            "none wires 248=10",
            "no such alert, 0 to 247: 248".to_string(),
        ),
        ("none wires 3-1=10", "the range falls: 3-1=10".to_string()),
        (
            "none wires 0-5=10 3=11",
            "alert 3 is named twice".to_string(),
        ),
    ] {
        assert_eq!(said_of_line(line), format!("line 2: {problem}"));
    }
}

#[test]
fn the_first_bad_line_is_the_one_that_is_told() {
    let text = "alerts 1\nnone\nread 2048\nread X\nread 2049\n";
    assert_eq!(said_of(text), "line 3: no record holds register 2048");
    let text = "alerts 1\nnone\nread X\nread 2048\n";
    assert_eq!(said_of(text), "line 3: no such register: X");
    let text = b"alerts 1\nread 2048\n\xFF\n";
    assert_eq!(said_of(text), "line 2: no record holds register 2048");
}

#[test]
fn bytes_that_are_no_text_are_told() {
    assert_eq!(
        said_of(b"alerts 1\nnone\xC3\x28\n"),
        "line 2: not UTF-8 text: byte 0xc3"
    );
    assert_eq!(
        said_of([0; 1000]),
        "-: this is no text: ./tarravane record --back gives the text of a trace"
    );
    let long = [&b"alerts 1\nnone "[..], &[b'x'; 10_000_000]].concat();
    assert_eq!(said_of(long), "line 2: longer than 4096 bytes");
    let comment = [&b"alerts 1\nnone #"[..], &[b'x'; 10_000_000]].concat();
    assert_eq!(given("record", &["-"], &comment).len(), 2 + 75);
}

/// More ticks than the writer is asked for at once; a bad one among them is found by its line.
#[test]
fn a_long_text() {
    for (head, start, registers, alerts) in [
        ("edition 24\nalerts 64\n", &[64][..], 1024, 64),
        ("edition 70\nalerts 248\n", &[255, 248], 2048, 248),
        ("edition pings\nalerts 248\n", &[254, 248], 2048, 248),
        ("edition wires\nalerts 248\n", &[253, 248], 2048, 248),
    ] {
        let line = |i: usize| format!("write {} {i} wires {}=10\n", i % registers, i % alerts);
        let lines: Vec<String> = (0..20_000).map(line).collect();
        let records = (0..20_000).map(|i| {
            let (wires, value) = (off_rest(&[(i % alerts, 0b10)]), i as u64);
            let edition = Edition::of(start[0]);
            record(edition, 2, (i % registers) as u64, value, wires)
        });
        let wanted: Vec<u8> = start.iter().copied().chain(records.flatten()).collect();
        assert_eq!(trace_of(&format!("{head}{}", lines.concat())), wanted);
        let mut bad = lines;
        bad[12_345] = format!("\nread {registers}\n");
        let problem = format!("line 12349: no record holds register {registers}");
        assert_eq!(said_of(format!("{head}{}", bad.concat())), problem);
    }
}

#[test]
fn a_file_is_there_whole_or_not_at_all() {
    let folder = Folder::new("whole");
    let (text, trace) = (folder.path("a.txt"), folder.path("a.trace"));
    fs::write(&text, "alerts 1\nread 2048\n").expect("a text");
    refused("record", &[&text, "-o", &trace], &[]);
    assert_eq!(folder.names(), ["a.txt"]);
    fs::write(&text, "alerts 1\nnone\n").expect("a text");
    assert!(given("record", &[&text, "-o", &trace], &[]).is_empty());
    let none = record(Edition::NEWEST, 0, 0, 0, Wires::REST);
    let whole = [vec![253, 1], none].concat();
    assert_eq!(fs::read(&trace).expect("the trace"), whole);
    refused("record", &["-", "-o", &trace], b"alerts 2\nnome\n");
    assert_eq!(fs::read(&trace).expect("the trace"), whole);
    given("record", &["-", "-o", &trace], b"alerts 2");
    assert_eq!(fs::read(&trace).expect("the trace"), [253, 2]);
    assert_eq!(folder.names(), ["a.trace", "a.txt"]);
}

#[test]
fn a_file_that_cannot_be_is_told() {
    let folder = Folder::new("cannot");
    let text = folder.path("a.txt");
    fs::write(&text, "alerts 1\n").expect("a text");
    let no_folder = folder.path("none/a.trace");
    for words in [
        &["-", "-o", &folder.path("")][..],
        &["-", "-o", &no_folder],
        &[&text, "-o", &text],
        &[&folder.path("missing.txt")],
        &[&folder.path("")],
        &[],
        &["-", "-o"],
        &["-", "-"],
        &["-", "--forth"],
    ] {
        refused("record", words, b"alerts 1\n");
    }
    assert_eq!(fs::read(&text).expect("the text"), b"alerts 1\n");
    assert_eq!(folder.names(), ["a.txt"]);
}
