//! `dump` as a technician runs it: which state of a trace is written, and what is said where there is none.
mod common;

use common::folder::Folder;
use common::ran::ran;
use common::records::{record, start};
use common::{configured, ended, example, examples, given, refused};
use handler::registers::Setting;
use handler::{Edition, Handler, Wires, DUMP_MOST};
use std::fs;

/// The dump of a state.
fn dumped(h: Handler) -> Vec<u8> {
    let mut out = vec![0; DUMP_MOST];
    let length = h.dump(&mut out).bytes().expect("it is written");
    out.truncate(length);
    out
}

fn trace(name: &str) -> Vec<u8> {
    fs::read(example(&format!("{name}.trace"))).expect(name)
}

/// Every tick's, in every edition of the examples.
#[test]
fn the_dump_is_that_of_the_state_after_the_tick() {
    let mut editions = Vec::new();
    for name in examples("trace") {
        let bytes = trace(&name);
        let (edition, all) = ran(&bytes);
        editions.push(edition);
        let last = all.last().expect("a tick").after;
        assert_eq!(given("dump", &["-"], &bytes), dumped(last), "{name}");
        for t in all.iter().step_by(7) {
            let tick = t.number.to_string();
            let dump = given("dump", &["-", "--at", &tick], &bytes);
            assert_eq!(dump, dumped(t.after), "{name}, tick {tick}");
        }
    }
    assert!(Edition::ALL.iter().all(|it| editions.contains(it)));
}

/// The first tick in which a class goes from Idle or Timeout to Phase 0, by the states alone.
#[test]
fn at_start_is_the_tick_of_the_first_escalation() {
    let (mut with, mut without) = (0, 0);
    for name in examples("trace") {
        let bytes = trace(&name);
        let (_, all) = ran(&bytes);
        let starts = |before: &Handler, after: &Handler| {
            let pairs = before.classes.iter().zip(&after.classes);
            pairs.into_iter().any(|(b, a)| b.state < 2 && a.state == 4)
        };
        match all.iter().find(|t| starts(&t.before, &t.after)) {
            Some(t) => {
                let dump = given("dump", &["-", "--at-start"], &bytes);
                assert_eq!(dump, dumped(t.after), "{name}");
                with += 1;
            }
            None => {
                let (written, said) = ended("dump", &["-", "--at-start"], &bytes, 1);
                let why = "--at-start: no escalation starts in this trace; no dump is written";
                assert_eq!((written, said), (vec![], vec![why.to_string()]), "{name}");
                without += 1;
            }
        }
    }
    assert!(with > 5 && without > 2, "{with} {without}");
}

/// Those that stand beside the traces are what `examples/dump` writes.
#[test]
fn the_stored_dumps_are_those_of_their_traces() {
    let script = fs::read_to_string(example("dump")).expect("the script");
    let commands = script
        .lines()
        .filter_map(|line| line.strip_prefix("../tarravane dump "));
    let mut names = Vec::new();
    for command in commands {
        let words: Vec<&str> = command.split(' ').collect();
        let (words, name) = match &words[..] {
            [words @ .., "-o", name] => (words, name),
            _ => panic!("{command}"),
        };
        let words: Vec<String> = words
            .iter()
            .map(|word| match word.ends_with(".trace") {
                true => example(word),
                false => word.to_string(),
            })
            .collect();
        let words: Vec<&str> = words.iter().map(String::as_str).collect();
        let stored = fs::read(example(name)).expect(name);
        assert_eq!(given("dump", &words, &[]), stored, "{name}");
        names.push(name.strip_suffix(".dump").expect(name).to_string());
    }
    assert_eq!(names, examples("dump"));
}

#[test]
fn a_trace_without_ticks_leaves_a_new_handler() {
    for edition in Edition::ALL {
        let bytes = start(edition, 3);
        let dump = given("dump", &["-"], &bytes);
        assert_eq!(dump, dumped(Handler::new(3).0));
        let (_, said) = ended("dump", &["-", "--at", "1"], &bytes, 1);
        assert_eq!(
            said,
            ["--at 1: the trace has only 0 ticks; no dump is written"]
        );
    }
}

/// What stands before the cut is written, and the cut is told; what is not read is not judged.
#[test]
fn a_cut_trace_gives_its_last_whole_state() {
    for edition in Edition::ALL {
        let regwen = edition.registers().class(1, Setting::Regwen);
        let lock = record(edition, 2, regwen.into(), 0, Wires::REST);
        let bytes = [start(edition, 1), lock, vec![0; 5]].concat();
        let (written, said) = ended("dump", &["-"], &bytes, 1);
        let cut = "cut: 5 bytes after tick 1, too few for a record";
        assert_eq!(said, [cut]);
        let mut h = Handler::new(1).0;
        h.classes[1].regwen = 0;
        assert_eq!(written, dumped(h));
        assert_eq!(given("dump", &["-", "--at", "1"], &bytes), dumped(h));
        let (written, said) = ended("dump", &["-", "--at", "2"], &bytes, 1);
        let why = "--at 2: the trace has only 1 tick; no dump is written";
        assert_eq!((written, said), (vec![], vec![why.into(), cut.into()]));
    }
}

#[test]
fn a_refused_n_has_no_dump() {
    for (bytes, why) in [
        (
            vec![],
            "the trace is empty: it begins with the number of alerts",
        ),
        (
            vec![65],
            "the trace asks for 65 alerts: records of 24 bytes are for 1 to 64",
        ),
        (
            vec![253, 0],
            "the trace asks for 0 alerts: records of 75 bytes are for 1 to 248",
        ),
    ] {
        for words in [&["-"][..], &["-", "--at", "1"], &["-", "--at-start"]] {
            let (written, said) = ended("dump", words, &bytes, 1);
            let why = format!("refused: {why}; no dump is written");
            assert_eq!((written, said), (vec![], vec![why]));
        }
    }
}

/// A file is there whole or not at all; an older one stays where there is no dump.
#[test]
fn a_file_is_written_whole_or_not_at_all() {
    let folder = Folder::new("dump");
    let (trace, to) = (example("broken-seal.trace"), folder.path("a.dump"));
    given("dump", &[&trace, "-o", &to], &[]);
    let first = fs::read(&to).expect("a dump");
    ended("dump", &[&trace, "--at", "38", "-o", &to], &[], 1);
    ended("dump", &["-", "-o", &to], &[0], 1);
    assert_eq!(fs::read(&to).expect("a dump"), first);
    given("dump", &[&trace, "--at-start", "-o", &to], &[]);
    let stored = fs::read(example("broken-seal.dump")).expect("a dump");
    assert_eq!(fs::read(&to).expect("a dump"), stored);
    assert_eq!(folder.names(), ["a.dump"]);
}

#[test]
fn what_cannot_be_done_is_told() {
    let folder = Folder::new("undone");
    let trace = folder.path("a.trace");
    fs::write(&trace, [1]).expect("a trace");
    let missing = folder.path("missing/a.dump");
    for (words, why) in [
        (&["missing.trace"][..], "cannot open missing.trace: "),
        (&[&trace, "-o", &missing], "cannot write "),
        (&[&trace, "-o", "."], "cannot write .: is a directory"),
        (&[&trace, "-o", &trace], "-o names the input itself: "),
        (&[&example("broken-seal.txt")], ""),
        (&[], "dump wants a trace"),
        (&[&trace, "--at", "x"], "--at wants a tick number from 1 on"),
    ] {
        let said = refused("dump", words, &[]);
        assert!(said.starts_with(why), "{said}");
    }
    let text = example("broken-seal.txt");
    assert!(refused("dump", &[&text], &[]).contains("this is a text"));
    assert_eq!(fs::read(&trace).expect("a trace"), [1]);
}

/// Each half-done write of a trace is in the dump, in a run of any kind of register.
#[test]
fn half_done_writes_are_kept() {
    let text = configured(
        "alerts 9\nconfigure ALERT3_CLASS 2\nwrite ALERT8_EN 1\nwrite PING_TIMEOUT_CYC 65535\n\
         write CLASSD_PHASE3_CYC 4294967295\nwrite LOC_ALERT6_CLASS 3\nwrite CLASSA_CTRL 0x393f\n",
    );
    let trace = given("record", &["-"], text.as_bytes());
    let dump = given("dump", &["-"], &trace);
    let page = String::from_utf8(given("read", &["-"], &dump)).expect("text");
    let (_, half) = page.split_once("writes half done:\n").expect("some");
    let lines: Vec<&str> = half
        .lines()
        .take_while(|line| line.starts_with(' '))
        .collect();
    assert_eq!(
        lines,
        [
            "  PING_TIMEOUT_CYC 65535",
            "  LOC_ALERT6_CLASS 3",
            "  ALERT8_EN 1",
            "  CLASSA_CTRL 0x393f",
            "  CLASSD_PHASE3_CYC 4294967295",
        ]
    );
}
