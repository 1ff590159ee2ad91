//! `explain --json` and `--summary --json`: an object in a line, with the names that help has.
mod common;

use common::json::{parsed, Json};
use common::ran::ran;
use common::{ended, example, explained, given, refused};
use handler::registers::LETTERS;
use handler::{Edition, ALERT_NAMES};
use harness::compare::{damage, generated};
use std::fs;

/// The objects of a run that goes well.
fn objects(words: &[&str], input: &[u8]) -> Vec<Json> {
    let lines = explained(words, input);
    lines
        .iter()
        .map(|line| parsed(&format!("{line}\n")))
        .collect()
}

const TICK: [&str; 27] = [
    "kind",
    "tick",
    "access",
    "register",
    "number",
    "value",
    "raw",
    "answer",
    "read",
    "refusal",
    "wires",
    "entropy",
    "receive",
    "answers",
    "interrupts",
    "lines",
    "classes",
    "events",
    "events_while_disabled",
    "local_alerts",
    "causes_set",
    "setting",
    "locked",
    "stages",
    "ping",
    "wrong_answers",
    "changed",
];

/// Words, states and counts are those of the library, whatever the trace; all objects have the same names.
#[test]
fn each_tick_is_an_object() {
    for edition in Edition::ALL {
        for case in generated(edition, 5).take(3) {
            let bytes = case.bytes();
            let (_, ticks) = ran(&bytes);
            let all = objects(&["--json", "-"], &bytes);
            assert_eq!(all.len(), ticks.len() + 2);
            assert_eq!(all[0].get("kind"), &Json::text("trace"));
            assert_eq!(all[0].get("edition"), &Json::text(edition.name()));
            for (object, t) in all[1..].iter().zip(&ticks) {
                assert_eq!(object.names(), TICK);
                assert_eq!(object.get("tick"), &Json::Number(t.number));
                let lines = (0..4).filter(|e| t.word.line(*e as usize));
                assert_eq!(object.get("lines").numbers(), lines.collect::<Vec<u64>>());
                let on = (0..4)
                    .filter(|k| t.word.interrupt(*k))
                    .map(|k| LETTERS[k].to_string());
                assert_eq!(object.get("interrupts").texts(), on.collect::<Vec<_>>());
                let refusal = t
                    .word
                    .refusal()
                    .map_or(Json::Null, |it| Json::Number(it.0.into()));
                assert_eq!(object.get("refusal"), &refusal);
                for (class, shown) in t.after.classes.iter().zip(object.get("classes").list()) {
                    assert_eq!(shown.get("esc_cnt"), &Json::Number(class.count.into()));
                    assert_eq!(shown.get("accum_cnt"), &Json::Number(class.accum.into()));
                }
            }
            let last = &all[all.len() - 1];
            assert_eq!(last.get("end"), &Json::text("whole"));
            assert_eq!(last.get("ticks"), &Json::Number(ticks.len() as u64));
        }
    }
}

/// Ticks of the broken seal by what they are.
#[test]
fn a_tick_says_what_it_does() {
    let seal = example("broken-seal.trace");
    let all = objects(&["--json", "--from", "14", "--to=27", &seal], &[]);
    assert_eq!(all.len(), 2 + 14);
    let tick = |number: usize| &all[number - 13];
    let setting = tick(14).get("setting");
    assert_eq!(setting.get("register"), &Json::text("CLASSA_CTRL"));
    assert_eq!(
        (setting.get("was").number(), setting.get("is").number()),
        (0x393C, 0x393F)
    );
    assert_eq!(tick(14).get("answer"), &Json::text("committed"));
    assert_eq!(tick(15).get("locked").texts(), ["CLASSA_REGWEN"]);
    assert_eq!(tick(16).get("causes_set").texts(), ["ALERT0_CAUSE"]);
    assert_eq!(tick(16).get("events").numbers(), [0]);
    assert_eq!(tick(17).get("read"), &Json::Number(1));
    assert_eq!(tick(18).get("changed"), &Json::Bool(false));
    assert_eq!(tick(24).get("lines").numbers(), [0]);
    assert_eq!(tick(26).get("refusal"), &Json::Number(3));
    assert_eq!(all[15].get("end"), &Json::text("stopped"));
    let changes = objects(&["--json", "--only-changes", &seal], &[]);
    assert_eq!(changes.len(), 2 + 16);
}

const SUMMARY: [&str; 18] = [
    "kind",
    "alerts",
    "record_bytes",
    "edition",
    "from",
    "to",
    "end",
    "classes",
    "events",
    "equal_wires",
    "switched_on",
    "switched_off",
    "switched_on_again",
    "changed_again",
    "ping_timer",
    "escalation_wires",
    "shadow_writes",
    "refusals",
];

#[test]
fn a_summary_is_one_object() {
    let all = objects(
        &["--summary", "--json", &example("switched-off.trace")],
        &[],
    );
    assert_eq!(all.len(), 1);
    let summary = &all[0];
    assert_eq!(summary.names(), SUMMARY);
    let [off, again] = ["switched_off", "switched_on_again"].map(|name| {
        let list = summary.get(name).get("first").list();
        let one = |it: &Json| {
            (
                it.get("tick").number(),
                it.get("what") == &Json::text("ALERT0"),
            )
        };
        list.iter().map(one).collect::<Vec<_>>()
    });
    assert_eq!(
        (off, again),
        (vec![(17, true), (19, false)], vec![(25, false), (27, true)])
    );
    let spans = summary.get("equal_wires").list()[0].get("spans");
    assert_eq!(spans.get("count"), &Json::Number(2));
    let class = &summary.get("classes").list()[0];
    assert_eq!(class.get("en"), &Json::Bool(true));
    assert_eq!(class.get("locked"), &Json::Bool(false));
    assert_eq!(class.get("state"), &Json::text("Idle"));
}

#[test]
fn every_summary_has_the_same_names() {
    for name in common::examples("trace") {
        let trace = example(&format!("{name}.trace"));
        let all = objects(&["--summary", "--json", &trace], &[]);
        assert_eq!((all.len(), all[0].names()), (1, SUMMARY.to_vec()));
    }
    let cable = objects(&["--summary", "--json", &example("cut-cable.trace")], &[]);
    let wrong = cable[0].get("escalation_wires").list()[0].get("wrong");
    assert_eq!(wrong.get("count"), &Json::Number(4));
    let starts = cable[0].get("classes").list()[0].get("starts");
    let start = &starts.get("first").list()[0];
    assert_eq!(start.get("by").texts(), ["LOC_ALERT3"]);
    assert_eq!(start.get("lines").get("count"), &Json::Number(4));
}

/// What is damaged is told in an object too, and the status is 1.
#[test]
fn damaged_traces_have_objects() {
    for edition in Edition::ALL {
        for case in damage(edition, 7).take(9) {
            let bytes = case.bytes();
            let status = common::round::status(&bytes);
            for words in [&["--json", "-"][..], &["--json", "--summary", "-"]] {
                let (out, said) = ended("explain", words, &bytes, status);
                let text = String::from_utf8(out).expect("text");
                let all: Vec<Json> = text.lines().map(|l| parsed(&format!("{l}\n"))).collect();
                assert!(said.is_empty());
                let last = &all[all.len() - 1];
                if last.get("kind") != &Json::text("refused") {
                    let end = ["whole", "cut"][status as usize];
                    assert_eq!(last.get("end"), &Json::text(end));
                }
            }
        }
    }
    let why = "--json has all that --wide has: one of them is enough";
    let seal = example("broken-seal.trace");
    assert_eq!(refused("explain", &["--json", "--wide", &seal], &[]), why);
}

/// The names of document 002, in rows, in the summary, in objects and in a dump's page.
#[test]
fn alerts_have_their_names() {
    let text = "alerts 60
        write ALERT14_EN 1\nwrite ALERT14_EN 1\nwrite CLASSA_CTRL 5\nwrite CLASSA_CTRL 5
        none wires 14=10 15=11\nwrite ALERT59_EN 1\nwrite ALERT59_EN 1\nnone wires 59=10\n";
    let trace = given("record", &["-"], text.as_bytes());
    let rows = explained(&["--names", "-"], &trace);
    assert!(
        rows[6].ends_with(" ALERT14 (OtpCtrlFatalMacroError)"),
        "{}",
        rows[6]
    );
    assert!(rows[9].ends_with(" ALERT59 ^1"), "{}", rows[9]);
    let summary = explained(&["--names", "--summary", "-"], &trace);
    for line in [
        "  start at 5 by ALERT14 (OtpCtrlFatalMacroError); not locked, no LOCK; Ph0 5, Ph1 6, Ph2 7, Ph3 8",
        "  ALERT14 (OtpCtrlFatalMacroError): 1 event, at 5",
        "  ALERT59: 1 event, at 8",
        "  ALERT15 (OtpCtrlFatalCheckError): 5-5",
    ] {
        assert!(summary.contains(&line.to_string()), "{summary:#?}");
    }
    let all = objects(&["--names", "--json", "-"], &trace);
    assert_eq!(all[0].get("names").texts(), ALERT_NAMES);
    let dump = given("dump", &["-"], &trace);
    let page = String::from_utf8(given("read", &["--names", "-"], &dump)).expect("text");
    assert!(
        page.contains("causes:\n  ALERT14 (OtpCtrlFatalMacroError)\n  ALERT59\n"),
        "{page}"
    );
    let object = String::from_utf8(given("read", &["--names", "--json", "-"], &dump));
    let names = parsed(&object.expect("text")).get("names").texts();
    assert_eq!(names, ALERT_NAMES);
    let widest = rows.iter().map(|row| row.len()).max();
    assert!(widest <= Some(120));
}

/// Help has every name of the objects.
#[test]
fn help_has_the_names() {
    let help = fs::read_to_string(common::repository("launcher/help/explain.txt")).expect("help");
    let inner = [
        "esc_cnt",
        "accum_cnt",
        "clears_accepted",
        "while_disabled",
        "pair_on",
        "end",
    ];
    for name in TICK.iter().chain(&SUMMARY).chain(&inner) {
        assert!(help.contains(&format!("\"{name}\"")), "{name}");
    }
}
