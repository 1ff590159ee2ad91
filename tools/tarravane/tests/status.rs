//! The exit status of each command, and where its words go.
mod common;

use common::folder::Folder;
use common::records::{record, record_248, record_64, record_pings, start, REST};
use common::{ended, example, program, run};
use handler::registers::Setting;
use handler::{Edition, Wires};
use std::fs::{self, File, OpenOptions};
use std::io::{BufRead, BufReader};
use std::process::{Command, Stdio};

/// The commands that read a trace.
const READERS: [(&str, &[&str]); 6] = [
    ("explain", &["-"]),
    ("explain", &["-", "--only-changes"]),
    ("explain", &["-", "--wide"]),
    ("explain", &["-", "--summary"]),
    ("calm", &["-", "9"]),
    ("record", &["-", "--back"]),
];

fn last_line(written: &[u8]) -> String {
    let text = String::from_utf8_lossy(written);
    text.lines().last().unwrap_or("").to_string()
}

#[test]
fn a_whole_trace_is_0() {
    for bytes in [
        vec![1],
        [vec![64], record_64(3, 0, 0, REST)].concat(),
        vec![255, 1],
        [vec![255, 248], record_248(3, 0, 0, Wires::REST)].concat(),
        vec![253, 1],
        [start(Edition::Wires, 248), vec![0; 75]].concat(),
        vec![254, 1],
        [vec![254, 248], record_pings(3, 0, 0, Wires::REST, (9, 15))].concat(),
    ] {
        for (command, words) in READERS {
            let (_, said) = ended(command, words, &bytes, 0);
            assert!(said.is_empty(), "{said:?}");
        }
    }
}

/// Explain and calm say it on standard output, at its end; the text of record --back is no place for it.
#[test]
fn a_cut_trace_is_1() {
    let why = "cut: 5 bytes after tick 1, too few for a record";
    for edition in Edition::ALL {
        let ctrl = edition.registers().class(0, Setting::Ctrl);
        let read = record(edition, 1, ctrl.into(), 0, Wires::REST);
        let bytes = [start(edition, 1), read, vec![0; 5]].concat();
        for (command, words) in READERS {
            let (written, said) = ended(command, words, &bytes, 1);
            match command {
                "explain" | "calm" => assert_eq!((&last_line(&written)[..], said), (why, vec![])),
                _ => assert_eq!(said, [why]),
            }
        }
        // What is not read is not judged.
        ended("explain", &["-", "--to", "1"], &bytes, 0);
    }
}

#[test]
fn a_refused_n_is_1() {
    let asks = |n, bytes, most| {
        format!(
            "refused: the trace asks for {n} alerts: records of {bytes} bytes are for 1 to {most}"
        )
    };
    let empty = "refused: the trace is empty: it begins with the number of alerts";
    let ends =
        |mark| format!("refused: the trace ends after {mark}: the number of alerts comes next");
    for (bytes, why) in [
        (vec![], empty.to_string()),
        (vec![0], asks(0, 24, 64)),
        (
            [vec![65], record_64(0, 0, 0, REST)].concat(),
            asks(65, 24, 64),
        ),
        (vec![252; 25], asks(252, 24, 64)),
        (vec![253], ends(253)),
        (vec![253; 77], asks(253, 75, 248)),
        (vec![254], ends(254)),
        (vec![254, 0], asks(0, 75, 248)),
        (vec![254; 77], asks(254, 75, 248)),
        (vec![255], ends(255)),
        (vec![255, 0], asks(0, 70, 248)),
        (vec![255, 249], asks(249, 70, 248)),
        (vec![255; 72], asks(255, 70, 248)),
    ] {
        for (command, words) in READERS {
            let (written, said) = ended(command, words, &bytes, 1);
            match command {
                "explain" | "calm" => {
                    assert_eq!(String::from_utf8_lossy(&written), format!("{why}\n"));
                    assert!(said.is_empty(), "{said:?}");
                }
                _ => assert_eq!(said[0], why),
            }
        }
    }
}

#[test]
fn what_cannot_be_done_is_2() {
    for (command, words) in [
        ("explain", &["missing.trace"][..]),
        ("explain", &["--summary", "missing.trace"]),
        ("record", &["missing.txt"]),
        ("record", &["--back", "missing.trace"]),
        ("record", &["-", "-o", "missing/a.trace"]),
        ("calm", &["missing.trace", "1"]),
        ("calm", &[]),
        ("dump", &["missing.trace"]),
        ("read", &["missing.dump"]),
        ("explain", &[]),
        ("record", &[]),
        ("dance", &[]),
    ] {
        let (written, said) = ended(command, words, b"alerts 1\n", 2);
        assert!(written.is_empty());
        assert_eq!(said.len(), 1, "{said:?}");
    }
}

/// Runs to an output that takes nothing: one line says so.
fn fails_to_write(mut command: Command, output: File) {
    let run = command.stdout(output).output().expect("it runs");
    let said = String::from_utf8_lossy(&run.stderr);
    assert_eq!(run.status.code(), Some(2), "{said}");
    assert!(said.starts_with("tarravane: cannot write: "), "{said}");
    assert_eq!(said.lines().count(), 1, "{said}");
}

#[test]
fn an_output_that_takes_nothing_is_2() {
    let full = || OpenOptions::new().write(true).open("/dev/full");
    let only_read = || File::open("/dev/null");
    let (seal, text) = (example("broken-seal.trace"), example("broken-seal.txt"));
    let dump = example("broken-seal.dump");
    for (command, words) in [
        ("explain", &[&seal[..]][..]),
        ("explain", &["--summary", &seal]),
        ("explain", &["--help"]),
        ("calm", &[&seal, "9"]),
        ("calm", &["--help"]),
        ("record", &["--help"]),
        ("record", &["--back", &seal]),
        ("record", &[&text]),
        ("dump", &["--help"]),
        ("dump", &[&seal]),
        ("read", &["--help"]),
        ("read", &[&dump]),
        ("read", &["--json", &dump]),
    ] {
        fails_to_write(program(command, words), full().expect("/dev/full"));
        fails_to_write(program(command, words), only_read().expect("/dev/null"));
    }
}

/// Words beside the result that nobody takes change no status.
#[test]
fn a_full_standard_error_changes_nothing() {
    let seal = example("broken-seal.trace");
    for (words, status) in [
        (&["missing.trace"][..], 2),
        (&["--all"], 2),
        (&["--from", "99", &seal], 0),
    ] {
        let full = OpenOptions::new().write(true).open("/dev/full");
        let mut command = program("explain", words);
        let run = command.stderr(full.expect("/dev/full")).output();
        assert_eq!(run.expect("it runs").status.code(), Some(status));
    }
}

/// Far more is written than a pipe holds; the reader takes a line and goes.
#[test]
fn a_reader_that_goes_away_is_no_fault() {
    let folder = Folder::new("long");
    let name = folder.path("a.trace");
    let bytes = [vec![1], record_64(1, 321, 0, REST).repeat(20_000)].concat();
    fs::write(&name, bytes).expect("a trace");
    for (command, words) in [
        ("explain", &[&name[..]][..]),
        ("record", &["--back", &name]),
    ] {
        let mut child = program(command, words)
            .stdout(Stdio::piped())
            .stderr(Stdio::piped())
            .spawn()
            .expect("it starts");
        let mut line = String::new();
        let out = child.stdout.take().expect("its output");
        BufReader::new(out).read_line(&mut line).expect("a line");
        let end = child.wait_with_output().expect("it ends");
        assert_eq!(end.status.code(), Some(0));
        assert!(end.stderr.is_empty(), "{:?}", end.stderr);
    }
}

/// The records before a cut are shown as those of the whole trace are.
#[test]
fn rows_before_a_cut_stay() {
    let whole = fs::read(example("broken-seal.trace")).expect("the example");
    let all = run("explain", &["-"], &whole).stdout;
    let cut = run("explain", &["-"], &whole[..whole.len() - 1]).stdout;
    let [all, cut] = [all, cut].map(|rows| String::from_utf8(rows).expect("text"));
    let rows = |text: &str| {
        text.lines()
            .take(38)
            .map(str::to_string)
            .collect::<Vec<_>>()
    };
    assert_eq!(rows(&all), rows(&cut));
    assert!(cut.ends_with("cut: 23 bytes after tick 36, too few for a record\n"));
}
