//! `boot` as a technician runs it: the table of what came back, and the boot as a trace.
mod common;

use common::folder::Folder;
use common::ran::each;
use common::{ended, explained, given, refused};
use handler::registers::{Field, Setting, LETTERS, MAP};
use handler::{Access, Edition, Handler, Lifecycle, Sample, Word, ALERT_NAMES};
use std::fs;

fn new(n: usize) -> Handler {
    Handler::new(n).0
}

/// The lines of a boot that goes well.
fn shown(words: &[&str]) -> Vec<String> {
    let text = String::from_utf8(given("boot", words, &[])).expect("text");
    text.lines().map(str::to_string).collect()
}

/// What a register of the state reads.
fn read(h: Handler, number: u16) -> u32 {
    let answer = h.tick(Access::Read(number), Sample::AT_REST).answer;
    answer.value().expect("a value")
}

fn alert_row(h: Handler, i: usize) -> String {
    let [regwen, en, class, _] = Field::ALL.map(|field| read(h, MAP.alert(field, i)));
    let class = match (class, en) {
        (0, 0) => 'X',
        _ => LETTERS[class as usize],
    };
    let locked = if regwen == 0 { "yes" } else { "no" };
    format!("{i} {} {class} {en} {locked}", ALERT_NAMES[i])
}

fn class_row(h: Handler, k: usize) -> String {
    let of = |setting| read(h, MAP.class(k, setting));
    let [p0, p1, p2, p3] = Setting::PHASES.map(of);
    let (threshold, timeout) = (of(Setting::AccumThresh), of(Setting::TimeoutCyc));
    let locked = if of(Setting::Regwen) == 0 {
        "yes"
    } else {
        "no"
    };
    let (letter, ctrl) = (LETTERS[k], of(Setting::Ctrl));
    format!("{letter} {threshold} {timeout} {p0} {p1} {p2} {p3} {ctrl:#x} {locked}")
}

/// Without the spaces that make columns.
fn words(line: &str) -> String {
    line.split_whitespace().collect::<Vec<_>>().join(" ")
}

/// Every row is what the registers of the state read that the library gave.
#[test]
fn the_table_is_that_of_the_state() {
    for (name, lifecycle) in Lifecycle::NAMES {
        for n in [58, 248] {
            let h = new(n).install(lifecycle).handler;
            let mut wanted = vec![format!("lifecycle {}; alerts: {n}", lifecycle.name())];
            wanted.push("alert name class EN locked".to_string());
            wanted.extend((0..58).map(|i| alert_row(h, i)));
            wanted.push(
                "class threshold timeout phase 0 phase 1 phase 2 phase 3 CTRL locked".to_string(),
            );
            wanted.extend((0..4).map(|k| class_row(h, k)));
            // The policy writes none of its registers.
            wanted.push("ping timer: off, timeout 0, not locked".to_string());
            wanted.push("installed: every register that was written reads back".to_string());
            let lower = name.to_ascii_lowercase();
            let got = shown(&[&lower, "--alerts", &n.to_string()]);
            assert!(got.iter().all(|line| line.len() <= 120));
            let got: Vec<String> = got.iter().map(|line| words(line)).collect();
            assert_eq!(got, wanted);
        }
    }
    assert_eq!(shown(&["PROD"]), shown(&["Prod", "--alerts", "58"]));
}

/// The trace of a boot.
fn trace(folder: &Folder, lifecycle: &str, n: usize) -> Vec<u8> {
    let file = folder.path("boot.trace");
    let n = n.to_string();
    shown(&[lifecycle, "--alerts", &n, "--trace", &file]);
    assert_eq!(folder.names(), ["boot.trace"]);
    fs::read(file).expect("the trace")
}

/// From a new handler its ticks end in the state that the library gives, and none is refused.
#[test]
fn the_trace_is_the_boot() {
    let folder = Folder::new("boot");
    for (name, lifecycle) in Lifecycle::NAMES {
        for n in [58, 59, 248] {
            let bytes = trace(&folder, name, n);
            let (mut last, mut ticks) = (new(n), 0);
            let edition = each(&bytes, |ran| {
                assert_eq!(ran.word.refusal(), None, "{name}, tick {}", ran.number);
                (last, ticks) = (ran.after, ran.number);
            });
            assert_eq!(edition, Edition::NEWEST);
            assert_eq!(bytes.len() as u64, 2 + edition.bytes() as u64 * ticks);
            assert!(last == new(n).install(lifecycle).handler, "{name} {n}");
        }
    }
}

/// Class A in phase 3 counts the ticks: the trace has as many as the boot, and from there too it ends where the boot does.
#[test]
fn the_trace_has_every_tick_of_the_boot() {
    let folder = Folder::new("boot-ticks");
    for (name, lifecycle) in Lifecycle::NAMES {
        let mut waiting = new(58);
        waiting.classes[0].state = 7;
        waiting.classes[0].count = 1;
        waiting.classes[0].lengths[3] = u32::MAX;
        let records = trace(&folder, name, 58).split_off(2);
        let ticks = records.len() / Edition::NEWEST.bytes();
        let mut out = vec![Word::default(); ticks];
        let (after, answer) = waiting.batch(Edition::NEWEST, &records, &mut out);
        assert_eq!(answer.value(), Ok(0));
        assert_eq!(after.classes[0].count as usize, 1 + ticks);
        assert!(after == waiting.install(lifecycle).handler, "{name}");
    }
}

#[test]
fn the_trace_is_explained() {
    let folder = Folder::new("boot-explain");
    let rows = explained(&["-"], &trace(&folder, "PROD", 58));
    assert_eq!(rows.len(), 2 + 474);
    for (row, wanted) in [
        (2, "1 write ALERT0_CLASS 2 staged"),
        (3, "2 write ALERT0_CLASS 2 committed"),
        (4, "3 read ALERT0_CLASS 2"),
        (5, "4 write ALERT0_EN 1 staged"),
        (350, "349 write CLASSA_ACCUM_THRESH 0 staged"),
        (434, "433 write ALERT14_REGWEN 0 done"),
        (475, "474 read CLASSA_REGWEN 0"),
    ] {
        assert!(words(&rows[row]).starts_with(wanted), "{}", rows[row]);
    }
}

/// With too few alerts nothing is installed, and no file is made or changed.
#[test]
fn too_few_alerts_are_refused() {
    let folder = Folder::new("boot-few");
    let file = folder.path("old.trace");
    fs::write(&file, "as it was").expect("a file");
    for n in ["1", "57"] {
        let words = ["DEV", "--alerts", n, "--trace", &file];
        let (shown, said) = ended("boot", &words, &[], 1);
        let wanted = format!(
            "lifecycle DEV; alerts: {n}\nrefused: {n} alerts are too few, a boot installs 58; nothing was changed\n"
        );
        assert_eq!(String::from_utf8_lossy(&shown), wanted);
        let why = "no trace is written, as the boot did not come to its end";
        assert_eq!(said, [why]);
        assert_eq!(fs::read(&file).expect("the file"), b"as it was");
    }
}

#[test]
fn help_names_every_lifecycle() {
    let help = shown(&["PROD", "--help"]).join("\n");
    assert!(help.starts_with("usage: ./tarravane boot "));
    for (name, _) in Lifecycle::NAMES {
        assert!(help.contains(name), "{name}");
    }
}

/// One line, and nothing is shown.
#[test]
fn what_cannot_be_done_is_told() {
    let folder = Folder::new("boot-bad");
    let (inside, here) = (folder.path("missing/t"), folder.path(""));
    for (words, wanted) in [
        (&["x"][..], "no such lifecycle: x"),
        (&["RAW/DEV"], "no such lifecycle: RAW/DEV"),
        (&["PROD", "--alerts", "249"], "--alerts wants a number"),
        (&["PROD", "--trace", &inside], "cannot write "),
        (&["PROD", "--trace", &here], "cannot write "),
    ] {
        let said = refused("boot", words, &[]);
        assert!(said.starts_with(wanted), "{said}");
    }
    assert!(folder.names().is_empty());
}
