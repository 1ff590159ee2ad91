//! What a clerk meets who writes texts by hand: lines that are repeated, stages that nobody commits, names that are misspelt,
//! files that are no texts and no traces, and a long text in little memory.
mod common;

use common::folder::Folder;
use common::{ended, example, given, program, recorded, refused, repository, said_of};
use handler::Edition;
use std::fs;
use std::io::Write;
use std::process::{Command, Stdio};
use std::thread::sleep;
use std::time::Duration;

/// What is said of a text that gives a trace.
fn warned(text: &str) -> Vec<String> {
    ended("record", &["-"], text.as_bytes(), 0).1
}

#[test]
fn a_line_is_repeated() {
    let short = "alerts 3\nrepeat 2 write CLASSA_CTRL 0x5\nrepeat 3 none wires 0=10 sound\n\trepeat 0x2\tread 1 # two\n";
    let long = "alerts 3\nwrite CLASSA_CTRL 0x5\nwrite CLASSA_CTRL 0x5\nnone wires 0=10 sound\nnone wires 0=10 sound
        none wires 0=10 sound\nread 1\nread 1\n";
    let trace = given("record", &["-"], short.as_bytes());
    assert_eq!(trace, given("record", &["-"], long.as_bytes()));
    let raw = "00".repeat(Edition::NEWEST.bytes());
    let trace = recorded(&format!("alerts 1\nrepeat 5 raw {raw}\n"));
    assert_eq!(trace.len(), 2 + 5 * Edition::NEWEST.bytes());
    let wants = "repeat wants a number from 1 to 4294967295, then a line";
    for (line, why) in [
        ("repeat", wants.to_string()),
        ("repeat none", format!("{wants}, not none")),
        ("repeat 0 none", format!("{wants}, not 0")),
        ("repeat 3", "repeat 3 wants a line after it".to_string()),
        (
            "repeat 3 repeat 3 none",
            "repeat is not repeated".to_string(),
        ),
        ("repeat 3 cut 00", "cut is not repeated".to_string()),
        (
            "repeat 3 alerts 2",
            "none, read, write, raw or cut is wanted, not alerts".to_string(),
        ),
    ] {
        assert_eq!(
            said_of(format!("alerts 1\n{line}\n")),
            format!("line 2: {why}")
        );
    }
    let why = "line 1: a text begins with alerts N, not with repeat";
    assert_eq!(said_of("repeat 2 alerts 1\n"), why);
}

/// By a read, by a write that differs, by a lock, and at the end.
#[test]
fn a_stage_that_is_never_committed_is_warned_of() {
    let text = "alerts 2
        repeat 2 write ALERT0_EN 1
        write CLASSA_CTRL 0x5
        read CLASSA_CTRL
        write ALERT1_EN 1
        write ALERT1_EN 0
        write ALERT1_CLASS 1
        write ALERT1_REGWEN 0
        write ALERT1_CLASS 1
        write CLASSB_TIMEOUT_CYC 7
        none";
    let is = "and is never committed";
    assert_eq!(
        warned(text),
        [
            format!("line 3: stages CLASSA_CTRL {is}: line 4 drops it"),
            format!("line 5: stages ALERT1_EN {is}: line 6 drops it"),
            format!("line 7: stages ALERT1_CLASS {is}: line 9 drops it"),
            format!("line 10: stages CLASSB_TIMEOUT_CYC {is}"),
        ]
    );
    let many: String = (0..12).map(|i| format!("write ALERT{i}_EN 1\n")).collect();
    let said = warned(&format!("alerts 12\n{many}"));
    assert_eq!(said.len(), 11);
    assert_eq!(said[9], format!("line 11: stages ALERT9_EN {is}"));
    assert_eq!(said[10], "2 more lines that are never committed");
    for edition in ["24", "70", "pings", "wires"] {
        let text = format!("edition {edition}\nalerts 2\nwrite CLASSA_CTRL 5\nnone\n");
        assert_eq!(warned(&text), [format!("line 3: stages CLASSA_CTRL {is}")]);
    }
}

#[test]
fn a_misspelt_register_gets_the_nearest_names() {
    for (line, why) in [
        (
            "write CLASSA_CTL 1",
            "no such register: CLASSA_CTL (nearest: CLASSA_CTRL)",
        ),
        (
            "read classb_state",
            "no such register: classb_state (nearest: CLASSB_STATE)",
        ),
        (
            "write CLASS_CTRL 1",
            "no such register: CLASS_CTRL (nearest: CLASSA_CTRL, CLASSB_CTRL, CLASSC_CTRL)",
        ),
        ("read the door", "no such register: the"),
    ] {
        assert_eq!(
            said_of(format!("alerts 1\n{line}\n")),
            format!("line 2: {why}")
        );
    }
}

#[test]
fn what_is_plainly_no_trace_is_told() {
    let text = "this is no trace: it is text, and every record has bytes that are 0";
    for name in [
        "README.md",
        "examples/broken-seal.svg",
        "launcher/help/all.txt",
        "Cargo.toml",
    ] {
        let name = repository(name);
        for words in [
            &["explain", &name][..],
            &["record", "--back", &name],
            &["calm", &name, "1"],
        ] {
            assert_eq!(
                refused(words[0], &words[1..], &[]),
                format!("{name}: {text}")
            );
        }
        let bytes = fs::read(&name).expect("a file");
        assert_eq!(refused("explain", &["-"], &bytes), format!("-: {text}"));
    }
    let dump = example("broken-seal.dump");
    let why = format!("{dump}: this is a dump: ./tarravane read shows it");
    assert_eq!(refused("explain", &[&dump], &[]), why);
    // N = 35 and a record that is well-formed, and too few bytes for one.
    let trace = [
        vec![35],
        common::records::record_64(1, 321, 0, common::records::REST),
    ]
    .concat();
    given("explain", &["-"], &trace);
    ended("explain", &["-"], b"# a few words", 1);
}

#[test]
fn a_trace_is_no_text() {
    let why = "this is no text: ./tarravane record --back gives the text of a trace";
    for name in common::examples("trace") {
        let trace = example(&format!("{name}.trace"));
        assert_eq!(refused("record", &[&trace], &[]), format!("{trace}: {why}"));
        let bytes = fs::read(&trace).expect("a trace");
        assert_eq!(refused("record", &["-"], &bytes), format!("-: {why}"));
    }
}

/// The trace is longer than the memory that there is, to a file and to standard output; a bad line at the end leaves nothing.
#[test]
fn a_long_text_in_little_memory() {
    let folder = Folder::new("record-memory");
    let text = folder.path("long.txt");
    fs::write(&text, "alerts 248\nrepeat 400000 none wires 0=10\n").expect("a text");
    let limited = "ulimit -v 16384; exec \"$0\" record \"$1\" -o \"$2\"";
    let run = |text: &str, to: &str| {
        let mut run = Command::new("sh");
        run.args(["-c", limited, env!("CARGO_BIN_EXE_tarravane-cli"), text, to]);
        run.stdout(Stdio::piped()).stderr(Stdio::piped());
        run.output().expect("it runs")
    };
    let file = folder.path("long.trace");
    assert!(run(&text, &file).status.success());
    let bytes = 2 + 400_000 * Edition::NEWEST.bytes();
    assert_eq!(fs::metadata(&file).expect("the trace").len(), bytes as u64);
    let printed = run(&text, "-");
    assert!(printed.status.success());
    assert!(printed.stdout == fs::read(&file).expect("the trace"));
    let bad = folder.path("bad.txt");
    fs::write(&bad, "alerts 248\nrepeat 400000 none\nnothing\n").expect("a text");
    let failed = run(&bad, "-");
    assert_eq!((failed.status.code(), failed.stdout.len()), (Some(2), 0));
    assert_eq!(run(&bad, &folder.path("bad.trace")).status.code(), Some(2));
    assert_eq!(folder.names(), ["bad.txt", "long.trace", "long.txt"]);
}

/// A signal that ends a command while it writes leaves nothing beside the older file.
#[test]
fn a_signal_leaves_no_part() {
    let folder = Folder::new("signals");
    let to = folder.path("a.vcd");
    let trace = fs::read(example("broken-seal.trace")).expect("the example");
    for (signal, number) in [("TERM", 15), ("INT", 2), ("HUP", 1)] {
        fs::write(&to, "older").expect("a file");
        let mut run = program("wave", &["-", "--all", "-o", &to])
            .stdin(Stdio::piped())
            .spawn()
            .expect("it starts");
        let mut input = run.stdin.take().expect("its input");
        input.write_all(&trace).expect("it reads");
        let mut tries = 0;
        while folder.names().len() < 2 {
            tries += 1;
            assert!(tries < 1000, "no part is written");
            sleep(Duration::from_millis(5));
        }
        let id = run.id().to_string();
        let killed = Command::new("kill").args(["-s", signal, &id]).status();
        assert!(killed.expect("kill").success());
        let status = run.wait().expect("it ends");
        assert_eq!(
            std::os::unix::process::ExitStatusExt::signal(&status),
            Some(number)
        );
        assert_eq!(folder.names(), ["a.vcd"]);
        assert_eq!(fs::read_to_string(&to).expect("the file"), "older");
    }
}
