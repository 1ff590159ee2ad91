//! `wave` holds a few megabytes, however long the trace.
mod common;

use common::folder::Folder;
use common::records::{off_rest, record, start};
use handler::{Edition, Wires};
use std::io::Write;
use std::process::{Command, Stdio};

/// The kilobytes that a run may have, with its code and its stack.
const MOST: usize = 16 * 1024;

/// Runs of records, alike: each has an event, an access and calm.
const PARTS: usize = 620;

fn part(edition: Edition) -> Vec<u8> {
    let none = |wires| record(edition, 0, 0, 0, wires);
    let read = record(edition, 1, 0, 0, Wires::REST);
    let calm = none(Wires::REST).repeat(398);
    [none(off_rest(&[(3, 0b10)])), read, calm].concat()
}

/// The trace comes on standard input: it is longer than the memory that there is.
#[test]
fn a_long_trace_in_little_memory() {
    let (edition, folder) = (Edition::NEWEST, Folder::new("wave-memory"));
    let part = part(edition);
    assert!(part.len() * PARTS > MOST * 1024);
    for ending in ["svg", "vcd"] {
        let limited = format!("ulimit -v {MOST}; exec \"$0\" wave - -o \"$1\"");
        let mut run = Command::new("sh")
            .args(["-c", &limited, env!("CARGO_BIN_EXE_tarravane-cli")])
            .arg(folder.path(&format!("a.{ending}")))
            .stdin(Stdio::piped())
            .spawn()
            .expect("it starts");
        let mut to = run.stdin.take().expect("its input");
        to.write_all(&start(edition, 248)).expect("it reads");
        for _ in 0..PARTS {
            to.write_all(&part).expect("it reads");
        }
        drop(to);
        assert!(run.wait().expect("it ends").success(), "{ending}");
    }
    assert_eq!(folder.names(), ["a.gtkw", "a.svg", "a.vcd"]);
}
