//! `read` as a technician runs it: the page of a dump, the JSON object, and what is said of other bytes.
mod common;

use common::json::{parsed, Json};
use common::{ended, example, given, refused};
use handler::registers::{Field, Register, Setting, LETTERS, MAP};
use handler::{read_dump, Handler, CLASSES, DUMP_MOST, LOCALS};
use harness::rng::Rng;
use harness::spoil::{spoil, Place, Way};
use std::fs;

/// The dump of a state.
fn dumped(h: Handler) -> Vec<u8> {
    let mut out = vec![0; DUMP_MOST];
    let length = h.dump(&mut out).bytes().expect("it is written");
    out.truncate(length);
    out
}

/// States of any number of alerts, with random registers and stages.
fn states(seed: u64) -> Vec<Handler> {
    let (mut rng, places) = (Rng::new(seed), Place::all());
    let mut all = vec![Handler::new(1).0, Handler::new(248).0];
    for way in [Way::Fitted, Way::Staged, Way::Fitted, Way::Staged] {
        for n in [1, 2, 58, 100, 248] {
            let mut h = Handler::new(n).0;
            spoil(way, &places, &mut rng, &mut h);
            h.n = n;
            if h.dump(&mut [0; DUMP_MOST]).bytes().is_ok() {
                all.push(h);
            }
        }
    }
    assert!(all.len() > 12, "{}", all.len());
    all
}

/// The names of the causes that are set, and of the locks that are closed or open, by the fields of the state.
fn causes(h: &Handler) -> Vec<String> {
    let locals = (0..LOCALS).filter(|j| h.locals.cause[*j] == 1);
    let alerts = (0..h.n).filter(|i| h.alerts.cause[*i] == 1);
    let locals = locals.map(|j| Register::Local(Field::Cause, j).to_string());
    let alerts = alerts.map(|i| Register::Alert(Field::Cause, i).to_string());
    locals.chain(alerts).collect()
}

fn locks(h: &Handler, locked: bool) -> Vec<String> {
    let mut all = vec![(Register::PingRegwen, h.timer.regwen == 0)];
    for j in 0..LOCALS {
        all.push((Register::Local(Field::Regwen, j), h.locals.regwen[j] == 0));
    }
    for i in 0..h.n {
        all.push((Register::Alert(Field::Regwen, i), h.alerts.regwen[i] == 0));
    }
    for (k, class) in h.classes.iter().enumerate() {
        all.push((Register::Class(k, Setting::Regwen), class.regwen == 0));
        all.push((Register::Class(k, Setting::ClrRegwen), class.clrwen == 0));
    }
    all.retain(|(_, is)| *is == locked);
    all.iter()
        .map(|(register, _)| register.to_string())
        .collect()
}

fn state_name(state: u32) -> &'static str {
    [
        "Idle", "Timeout", "", "Terminal", "Phase 0", "Phase 1", "Phase 2", "Phase 3",
    ][state as usize]
}

/// The object, whole and in the order that its help says.
#[test]
fn the_object_has_what_the_state_held() {
    for h in states(1) {
        let dump = dumped(h);
        let text = String::from_utf8(given("read", &["--json", "-"], &dump)).expect("text");
        assert_eq!(text.lines().count(), 1);
        let object = parsed(&text);
        assert_eq!(object.get("dump"), &Json::text("whole"));
        assert_eq!(object.get("bytes"), &Json::Number(dump.len() as u64));
        assert_eq!(object.get("alerts"), &Json::Number(h.n as u64));
        for (k, (class, given)) in h
            .classes
            .iter()
            .zip(object.get("classes").list())
            .enumerate()
        {
            assert_eq!(given.get("class"), &Json::text(LETTERS[k]));
            assert_eq!(given.get("state"), &Json::text(state_name(class.state)));
            let ticks = match class.state {
                0 | 3 => Json::Null,
                _ => Json::Number(class.count.into()),
            };
            assert_eq!(given.get("ticks"), &ticks);
            assert_eq!(given.get("accum_cnt"), &Json::Number(class.accum.into()));
        }
        assert_eq!(object.get("classes").list().len(), CLASSES);
        assert_eq!(object.get("causes").texts(), causes(&h));
        assert_eq!(object.get("locked").texts(), locks(&h, true));
        assert_eq!(object.get("not_locked").texts(), locks(&h, false));
        let half: Vec<(u64, u64)> = object
            .get("half_done")
            .list()
            .iter()
            .map(number_and_value)
            .collect();
        let held = read_dump(&dump).0.stages;
        let wanted = (0..).zip(held).filter(|(_, code)| *code > 0);
        let wanted: Vec<(u64, u64)> = wanted.map(|(number, code)| (number, code - 1)).collect();
        assert_eq!(half, wanted);
    }
}

/// A stage by its number and value; its name is that of the number.
fn number_and_value(stage: &Json) -> (u64, u64) {
    let (number, value) = (stage.get("number").number(), stage.get("value").number());
    let register = MAP.register(number as u16).expect("a register");
    assert_eq!(stage.get("register"), &Json::text(register));
    (number, value)
}

/// The numbers or letters that a line of the page lists, without its first words.
fn listed(line: &str, words: &[&str]) -> Option<Vec<usize>> {
    let rest = words.iter().find_map(|it| line.strip_prefix(it))?;
    let at = |word: &str| {
        let letter = LETTERS.iter().position(|letter| word == letter.to_string());
        letter.unwrap_or_else(|| word.parse().expect(line))
    };
    let run = |run: &str| match run.split_once(" to ") {
        Some((first, last)) => (at(first)..=at(last)).collect::<Vec<_>>(),
        None => vec![at(run)],
    };
    Some(rest.split(", ").flat_map(run).collect())
}

/// The names of the locks that a part of the page lists, its lines joined.
fn named(lines: &[String]) -> Vec<String> {
    let mut all = Vec::new();
    let mut classes: [Vec<usize>; 2] = [vec![], vec![]];
    for line in lines {
        if line == "ping timer" {
            all.push(Register::PingRegwen.to_string());
        } else if let Some(some) = listed(line, &["local alerts ", "local alert "]) {
            all.extend(
                some.iter()
                    .map(|j| Register::Local(Field::Regwen, *j).to_string()),
            );
        } else if let Some(some) = listed(line, &["alerts ", "alert "]) {
            all.extend(
                some.iter()
                    .map(|i| Register::Alert(Field::Regwen, *i).to_string()),
            );
        } else if let Some(some) = listed(line, &["classes ", "class "]) {
            classes[0] = some;
        } else if let Some(some) = listed(line, &["clears of classes ", "clear of class "]) {
            classes[1] = some;
        } else {
            panic!("{line}");
        }
    }
    for k in 0..CLASSES {
        for (some, setting) in classes.iter().zip([Setting::Regwen, Setting::ClrRegwen]) {
            if some.contains(&k) {
                all.push(Register::Class(k, setting).to_string());
            }
        }
    }
    all
}

/// The lines below a title, those that go on joined with the one before.
fn part(page: &[String], title: &str) -> Vec<String> {
    let at = page.iter().position(|line| line.starts_with(title));
    let at = at.expect(title);
    let below = page[at + 1..]
        .iter()
        .take_while(|line| line.starts_with("  "));
    let mut all: Vec<String> = Vec::new();
    for line in below {
        match (line.strip_prefix("    "), all.last_mut()) {
            (Some(more), Some(last)) => *last = format!("{last} {more}"),
            _ => all.push(line[2..].to_string()),
        }
    }
    all
}

/// Read back, the page has every lock of the state, once.
#[test]
fn the_page_has_what_the_state_held() {
    for h in states(2) {
        let dump = dumped(h);
        let text = String::from_utf8(given("read", &["-"], &dump)).expect("text");
        let page: Vec<String> = text.lines().map(str::to_string).collect();
        assert_eq!(named(&part(&page, "locked")), locks(&h, true));
        assert_eq!(named(&part(&page, "not locked")), locks(&h, false));
        for (k, class) in h.classes.iter().enumerate() {
            let (letter, state) = (LETTERS[k], state_name(class.state));
            let ticks = match (class.state, class.count) {
                (0 | 3, _) => String::new(),
                (_, 1) => " for 1 tick".to_string(),
                (_, count) => format!(" for {count} ticks"),
            };
            let line = format!("class {letter}: {state}{ticks}; ACCUM_CNT {}", class.accum);
            assert_eq!(page[1 + k], line);
        }
        let told = part(&page, "causes").join("\n");
        for j in 0..LOCALS {
            let is = told.contains(&format!("LOC_ALERT{j}: "));
            assert_eq!(is, h.locals.cause[j] == 1);
        }
        let half = part(&page, "writes half done").len();
        let open = read_dump(&dump)
            .0
            .stages
            .iter()
            .filter(|code| **code > 0)
            .count();
        assert_eq!(half, open);
    }
}

#[test]
fn the_example_is_shown() {
    let page = given("read", &[&example("broken-seal.dump")], &[]);
    let page = String::from_utf8(page).expect("text");
    assert_eq!(
        page.lines().take(10).collect::<Vec<_>>(),
        [
            "dump of 2 alerts: 36 bytes",
            "class A: Phase 0 for 1 tick; ACCUM_CNT 3",
            "class B: Idle; ACCUM_CNT 0",
            "class C: Idle; ACCUM_CNT 0",
            "class D: Idle; ACCUM_CNT 0",
            "causes:",
            "  ALERT0",
            "locked:",
            "  class A",
            "  clear of class A",
        ]
    );
    assert!(page.contains("not in a dump: "));
}

/// What is no whole dump: one line, status 1, and nothing of it is shown.
#[test]
fn a_cut_or_damaged_file_is_1() {
    let dump = fs::read(example("silly-threshold.dump")).expect("a dump");
    for length in 0..dump.len() {
        let (written, said) = ended("read", &["-"], &dump[..length], 1);
        let text = String::from_utf8(written).expect("text");
        assert!(text.starts_with("cut: ") && said.is_empty(), "{text}");
        assert_eq!(text.lines().count(), 1);
        let (written, _) = ended("read", &["-", "--json"], &dump[..length], 1);
        let object = parsed(&String::from_utf8(written).expect("text"));
        assert_eq!(object.get("dump"), &Json::text("cut"));
        assert_eq!(object.get("bytes"), &Json::Number(length as u64));
        let missing = object.get("missing_at_least").number() as usize;
        assert!(missing > 0 && missing <= dump.len() - length);
    }
    let longest = vec![b'T'; 100_000];
    for (bytes, read) in [
        (&[&dump[..], &[0]].concat(), dump.len() + 1),
        (&longest, 3333),
    ] {
        let (written, said) = ended("read", &["-"], bytes, 1);
        let text = String::from_utf8(written).expect("text");
        assert!(text.starts_with("damaged: ") && said.is_empty(), "{text}");
        assert!(text.ends_with("nothing of it can be trusted\n"));
        let (written, _) = ended("read", &["-", "--json"], bytes, 1);
        let wanted = format!("{{\"dump\":\"damaged\",\"bytes\":{read}}}\n");
        assert_eq!(String::from_utf8(written).expect("text"), wanted);
    }
}

#[test]
fn what_cannot_be_read_is_2() {
    assert!(refused("read", &["missing.dump"], &[]).starts_with("cannot open missing.dump: "));
    assert!(refused("read", &["."], &[]).starts_with("cannot read .: "));
    assert!(refused("read", &[], &[]).starts_with("read wants a dump"));
    assert!(refused("read", &["a", "b"], &[]).starts_with("read takes one dump"));
}
