//! `calm`: what is told of calm ticks is what plain ticks do, and what a trace that goes on shows.
mod common;

use common::folder::Folder;
use common::ran::{ran, Ran};
use common::records::{record, record_64, start, REST};
use common::{ended, example, given, refused};
use handler::registers::{Setting, LETTERS};
use handler::{Access, Edition, Handler, Sample, Wires};
use harness::generate::{trace, Kind};
use harness::opened::opened;
use std::fs;

/// The lines of a run that goes well.
fn told(words: &[&str], input: &[u8]) -> Vec<String> {
    let text = String::from_utf8(given("calm", words, input)).expect("text");
    let lines: Vec<String> = text.lines().map(str::to_string).collect();
    for line in &lines {
        assert!(line.len() <= 120, "{line}");
    }
    lines
}

/// The rows of the changes: tick, trace tick and what is said.
fn changes(lines: &[String]) -> Vec<(u64, u64, String)> {
    let row = |line: &String| {
        let (ticks, said) = line.strip_prefix("tick ")?.split_once(": ")?;
        let (tick, of_trace) = ticks.split_once(", trace tick ")?;
        let number = |word: &str| word.parse().expect("a number");
        Some((number(tick), number(of_trace), said.to_string()))
    };
    lines.iter().filter_map(row).collect()
}

/// The lines that are on after what is said, line 0 at the lowest bit.
fn applied(lines: u32, said: &str) -> u32 {
    let (said, _) = said.split_once(';').expect("classes");
    let mut lines = lines;
    let mut named: Vec<u32> = Vec::new();
    for word in said.split([' ', ',']).filter(|word| !word.is_empty()) {
        match word {
            "line" | "lines" => named.clear(),
            "on" => named.iter().for_each(|e| lines |= 1 << e),
            "off" => named.iter().for_each(|e| lines &= !(1u32 << e)),
            number => named.push(number.parse().expect("a line")),
        }
    }
    lines
}

/// One plain tick of the same inputs.
fn plain(h: Handler, wires: Wires) -> handler::Ticked {
    let sample = Sample {
        receive: h.links.senders.right(),
        ..Sample::of(wires)
    };
    h.tick(Access::Nothing, sample)
}

const STATES: [&str; 8] = [
    "Idle", "Timeout", "?", "Terminal", "Phase 0", "Phase 1", "Phase 2", "Phase 3",
];

/// Every row, line by line, beside plain ticks from this state.
fn beside_plain_ticks(lines: &[String], mut h: Handler, wires: Wires, before: u64, ticks: u64) {
    let rows = changes(lines);
    let mut rows = rows.iter();
    let mut at = lines_of(&h);
    assert!(behind(lines, "before: lines on: ").starts_with(&names(at)));
    for tick in 1..=ticks {
        let given = plain(h, wires);
        if given.output.lines != at {
            let (row, of_trace, said) = rows.next().expect("a row");
            assert_eq!((*row, *of_trace), (tick, before + tick));
            assert_eq!(applied(at, said), given.output.lines, "{said}");
            let moved = (0..4).filter(|k| h.classes[*k].state != given.handler.classes[*k].state);
            let moved = moved.map(|k| {
                let state = given.handler.classes[k].state as usize;
                format!("{} {}", LETTERS[k], STATES[state])
            });
            let moved: Vec<String> = moved.collect();
            assert!(said.ends_with(&format!("; {}", moved.join(", "))), "{said}");
        }
        (h, at) = (given.handler, given.output.lines);
    }
    assert_eq!(rows.next(), None);
    assert!(behind(lines, "after: lines on: ").starts_with(&names(at)));
    for (k, class) in h.classes.iter().enumerate() {
        let row = behind(lines, &format!("class {}: ", LETTERS[k]));
        assert!(row.starts_with(STATES[class.state as usize]), "{row}");
        let accum = format!("ACCUM_CNT {}", class.accum);
        assert_eq!(row.contains(&accum), class.accum > 0, "{row}");
        let count = format!("ESC_CNT {} of ", class.count);
        assert_eq!(row.contains(&count), class.count > 0, "{row}");
    }
}

/// What stands behind this start of a line.
fn behind<'a>(lines: &'a [String], start: &str) -> &'a str {
    let mut found = lines.iter().filter_map(|line| line.strip_prefix(start));
    found.next().expect(start)
}

/// What step 5 gives of a state.
fn lines_of(h: &Handler) -> u32 {
    let mut list = [handler::Change::default(); handler::CHANGES];
    h.calm(Wires::REST, 0, &mut list).output.lines
}

/// The lines that are on, as a row has them.
fn names(lines: u32) -> String {
    let on: Vec<String> = (0..4)
        .filter(|e| lines >> e & 1 == 1)
        .map(|e| e.to_string())
        .collect();
    match on.is_empty() {
        true => "none;".to_string(),
        false => format!("{};", on.join(", ")),
    }
}

/// Calm after this tick of a trace, on its wires and on equal ones; how many rows it has, none where the timer is on.
fn after_tick(edition: Edition, bytes: &[u8], tick: &Ran) -> Option<usize> {
    let (h, number) = (tick.after, tick.number);
    let to = number.to_string();
    if h.timer.is_on() {
        ended("calm", &["-", "60", "--to", &to], bytes, 1);
        return None;
    }
    let lines = told(&["-", "60", "--to", &to], bytes);
    beside_plain_ticks(&lines, h, wires_of(edition, tick), number, 60);
    let mut broken = Wires::REST;
    broken.pos[0] = 1 << 63;
    let given = told(&["-", "60", "--wires", "0=11", "--to", &to], bytes);
    beside_plain_ticks(&given, h, broken, number, 60);
    Some(changes(&lines).len() + changes(&given).len())
}

/// Generated traces of every edition and kind, from some of their ticks on.
#[test]
fn what_is_told_is_what_plain_ticks_do() {
    let (mut rows, mut refused) = (0, 0);
    for edition in Edition::ALL {
        for seed in 0..30 {
            let bytes = trace(edition, Kind::of(edition, seed), seed);
            // Some have an N that is refused, or no whole record.
            if opened(&bytes).alerts() == 0 {
                continue;
            }
            let (_, all) = ran(&bytes);
            let moving = |tick: &&Ran| tick.after.classes.iter().any(|class| class.count > 0);
            let moving: Vec<&Ran> = all.iter().filter(moving).collect();
            let third = moving.len() / 3 + 1;
            for tick in moving.into_iter().step_by(third).chain(all.last()) {
                match after_tick(edition, &bytes, tick) {
                    Some(more) => rows += more,
                    None => refused += 1,
                }
            }
        }
    }
    assert!(rows > 200 && refused > 20, "{rows} {refused}");
}

/// The wires of a tick's record.
fn wires_of(edition: Edition, tick: &Ran) -> Wires {
    let mut wires = Wires::REST;
    for i in 0..tick.after.n {
        let (pair, place) = (tick.pair(edition, i), 1 << (63 - i % 64));
        match pair & 0b10 {
            0 => wires.pos[i / 64] &= !place,
            _ => wires.pos[i / 64] |= place,
        }
        match pair & 0b01 {
            0 => wires.neg[i / 64] &= !place,
            _ => wires.neg[i / 64] |= place,
        }
    }
    wires
}

/// From the tick of the last event on the trace has nothing but reads and a refused clear: the lines go as they were told.
#[test]
fn what_is_told_comes_true_in_the_trace() {
    for (name, to) in [
        ("far-alert", "21"),
        ("broken-seal", "25"),
        ("silly-threshold", "19"),
    ] {
        let file = example(&format!("{name}.trace"));
        let lines = told(&[&file, "4294967295", "--to", to, "--wires", "rest"], &[]);
        let (_, all) = ran(&fs::read(&file).expect("the trace"));
        let on = |at: usize| -> Vec<bool> { (0..4).map(|e| all[at].word.line(e)).collect() };
        let from: usize = to.parse().expect("a tick");
        let changed = (from..all.len()).filter(|at| on(*at) != on(at - 1));
        let wanted: Vec<u64> = changed.map(|at| all[at].number).collect();
        let got: Vec<u64> = changes(&lines).iter().map(|row| row.1).collect();
        assert_eq!(got, wanted, "{name}");
        assert!(got.len() >= 4);
    }
}

#[test]
fn the_theft_is_told() {
    let file = example("silly-threshold.trace");
    let lines = told(&["--to", "15", &file, "4294967295"], &[]);
    assert_eq!(
        lines,
        [
            "alerts: 3; records of 70 bytes; ticks: 15",
            "calm ticks: 4294967295, the first is trace tick 16; wires of tick 15: 2=10",
            "before: lines on: none; interrupts on: none",
            "no line goes on or off",
            "after: lines on: none; interrupts on: none",
            "class A: Idle, ACCUM_CNT 3",
            "class B: Idle",
            "class C: Idle",
            "class D: Idle",
        ]
    );
}

/// The last wires stay, also of a malformed record; a trace without records has them at rest.
#[test]
fn the_wires_are_those_of_the_last_tick() {
    let heading = |words: &[&str], bytes: &[u8]| told(words, bytes)[1].clone();
    for edition in Edition::ALL {
        let mut wires = Wires::REST;
        wires.pos[0] = 1 << 63 | 1 << 62 | 1 << 61;
        wires.neg[0] &= !(1 << 63);
        let malformed = record(edition, 3, 0, 0, wires);
        let bytes = [start(edition, 2), malformed].concat();
        let wanted = "calm ticks: 7, the first is trace tick 2; wires of tick 1: 0=10 1=11";
        assert_eq!(heading(&["-", "7"], &bytes), wanted);
        let given = heading(&["-", "7", "--wires", "1=00"], &bytes);
        assert!(
            given.ends_with("trace tick 2; wires as given: 1=00"),
            "{given}"
        );
        let none = heading(&["-", "7"], &start(edition, 2));
        let wanted = "calm ticks: 7, the first is trace tick 1; wires before tick 1: all at rest";
        assert_eq!(none, wanted);
    }
    let mut odd = Wires::REST;
    odd.pos = [0xAAAA_AAAA_AAAA_AAAA; 4];
    let bytes = record(Edition::Wires, 0, 0, 0, odd);
    let bytes = [start(Edition::Wires, 248), bytes].concat();
    assert!(heading(&["-", "0"], &bytes).ends_with("wires of tick 1: 124 alerts off rest"));
}

/// What cannot be done is one line and status 2.
#[test]
fn bad_words_and_files_are_told() {
    let seal = example("broken-seal.trace");
    let text = example("broken-seal.txt");
    let ticks = "calm wants a number of ticks from 0 to 4294967295, not ";
    for (words, wanted) in [
        (
            &[&seal[..]][..],
            "calm wants a number of ticks after the trace".to_string(),
        ),
        (
            &[],
            "calm wants a trace, a file or - for standard input".to_string(),
        ),
        (&[&seal, "soon"], format!("{ticks}soon")),
        (&[&seal, "4294967296"], format!("{ticks}4294967296")),
        (
            &[&seal, "1", "2"],
            "calm takes one trace and one number of ticks".to_string(),
        ),
        (
            &[&seal, "1", "--wires", "2=10"],
            "--wires names alert 2: the trace has 2 alerts, 0 to 1".to_string(),
        ),
        (
            &[&text, "1"],
            format!("{text}: this is a text: ./tarravane record makes a trace of it"),
        ),
    ] {
        assert_eq!(refused("calm", words, &[]), wanted);
    }
    let missing = refused("calm", &["missing.trace", "1"], &[]);
    assert!(
        missing.starts_with("cannot open missing.trace: "),
        "{missing}"
    );
    let folder = Folder::new("calm");
    let said = refused("calm", &[&folder.path(""), "1"], &[]);
    assert!(said.starts_with("cannot read "), "{said}");
}

/// A cut trace is told up to its cut, and what follows too.
#[test]
fn a_cut_trace_is_told() {
    let whole = fs::read(example("broken-seal.trace")).expect("the trace");
    let cut = &whole[..whole.len() - 3];
    let (shown, said) = ended("calm", &["-", "9"], cut, 1);
    let shown = String::from_utf8(shown).expect("text");
    assert!(said.is_empty());
    assert!(shown.starts_with("alerts: 2; records of 24 bytes; ticks: 36\n"));
    assert!(shown.contains("\nclass A: Terminal, ACCUM_CNT 3\n"));
    assert!(shown.ends_with("\ncut: 21 bytes after tick 36, too few for a record\n"));
    // What is not read is not judged.
    told(&["-", "9", "--to", "36"], cut);
}

#[test]
fn a_timer_that_is_on_is_told() {
    for name in ["stuck-sender", "cut-cable", "initialise"] {
        let (shown, said) = ended("calm", &[&example(&format!("{name}.trace")), "5"], &[], 1);
        let shown = String::from_utf8(shown).expect("text");
        let last = shown.lines().last().expect("a line");
        assert!(
            last.starts_with("refused: the ping timer is on (15): "),
            "{last}"
        );
        assert!(last.len() <= 120 && shown.lines().count() == 2 && said.is_empty());
    }
    // Before it is on there is calm.
    told(&["--to", "5", &example("stuck-sender.trace"), "5"], &[]);
}

/// More records than are read at once, and the most ticks.
#[test]
fn a_long_trace_is_run_to_its_end() {
    let configure = |setting, value: u64| {
        let number = Edition::Alerts64.registers().class(0, setting).into();
        record_64(2, number, value, REST).repeat(2)
    };
    let mut bytes = vec![1];
    bytes.extend(record_64(2, 128, 1, REST).repeat(2));
    bytes.extend(configure(Setting::Ctrl, 0x393D));
    bytes.extend(configure(Setting::Phase0Cyc, 10_000));
    bytes.extend(record_64(0, 0, 0, (1 << 63, u64::MAX >> 1)));
    bytes.extend(record_64(1, 321, 0, REST).repeat(9_000));
    let lines = told(&["-", "4294967295"], &bytes);
    assert_eq!(lines[0], "alerts: 1; records of 24 bytes; ticks: 9007");
    let ticks: Vec<u64> = changes(&lines).iter().map(|row| row.1).collect();
    // Phases of 10,000, 0, 0 and 0 ticks from tick 7 on.
    assert_eq!(ticks, [10_007, 10_008, 10_009, 10_010]);
    let lines = told(&["-", "1", "--to", "8999"], &bytes);
    assert_eq!(lines[0], "alerts: 1; records of 24 bytes; ticks: 8999");
    assert!(
        lines.contains(&"class A: Phase 0, ESC_CNT 8994 of PHASE0_CYC 10000, ACCUM_CNT 1".into())
    );
}

#[test]
fn help_names_what_is_asked() {
    let help = told(&["--help"], &[]).join("\n");
    assert!(help.starts_with("usage: ./tarravane calm "));
    for word in [
        "TRACE TICKS",
        "--wires PAIRS",
        "--to TICK",
        "(15)",
        "Exit status:",
    ] {
        assert!(help.contains(word), "{word}");
    }
    assert!(help.lines().all(|line| line.len() <= 104));
}
