//! `wave -o FILE.vcd`: the dump is read back and compared with what the library gives, tick by tick.
mod common;

use common::folder::Folder;
use common::ran::{ran, Ran};
use common::records::{record, start};
use common::vcd::Dump;
use common::wave::{dump, wave};
use common::{ended, example, examples, given};
use handler::registers::{Setting, LETTERS};
use handler::{Edition, Handler, Place, Whose, Wires, WORDS};
use harness::compare::{generated, Case};
use std::fs;

fn trace(name: &str) -> Vec<u8> {
    fs::read(example(&format!("{name}.trace"))).expect("the example")
}

/// The lines and interrupts of each word that the program prints stand in the dump of the same trace.
#[test]
fn the_words_are_found_in_every_tick() {
    assert_eq!(examples("words"), examples("trace"));
    for name in examples("trace") {
        let dump = dump(&trace(&name), &[]);
        let words = fs::read_to_string(example(&format!("{name}.words"))).expect("words");
        let ticks = words.lines().count() as u64;
        for (tick, word) in (1..).zip(words.lines()) {
            let word = u64::from_str_radix(word, 16).expect("hex");
            for k in 0..4 {
                let letter = LETTERS[k];
                let name = format!("{}.CLASS{letter}_INTERRUPT", scope(k));
                assert_eq!(dump.is_on(&name, tick), word >> (63 - k) & 1 == 1);
                let line = format!("lines.LINE{k}");
                assert_eq!(dump.is_on(&line, tick), word >> (59 - k) & 1 == 1);
            }
        }
        assert_eq!(dump.end, ticks + 1);
        assert_eq!(dump.at("trace.END", ticks), "whole");
        assert_eq!(dump.at("trace.END", ticks - 1), "-");
    }
}

fn scope(k: usize) -> String {
    format!("class_{}", LETTERS[k].to_ascii_lowercase())
}

/// States, counts and outputs of a tick.
fn check_classes(dump: &Dump, t: &Ran) {
    for k in 0..4 {
        let (scope, letter, class) = (scope(k), LETTERS[k], &t.after.classes[k]);
        let at = |name: &str| dump.at(&format!("{scope}.CLASS{letter}_{name}"), t.number);
        assert_eq!(at("STATE"), class.state.to_string());
        let names = ["Idle", "Tout", "?", "Term", "Ph0", "Ph1", "Ph2", "Ph3"];
        assert_eq!(at("STATE_NAME"), names[class.state as usize]);
        assert_eq!(at("ESC_CNT"), class.count.to_string());
        assert_eq!(at("ACCUM_CNT"), class.accum.to_string());
        assert_eq!(at("INTERRUPT") == "1", t.word.interrupt(k));
        let line = format!("lines.LINE{k}");
        assert_eq!(dump.is_on(&line, t.number), t.word.line(k));
    }
}

/// Is the record a well-formed write of 1 to the CLR of class k, which is accepted?
fn clears(edition: Edition, t: &Ran, k: usize) -> bool {
    let clr = edition.registers().class(k, Setting::Clr);
    let head = record(edition, 2, clr.into(), 1, Wires::REST);
    t.record[..8] == head[..8] && t.word.refusal().is_none()
}

fn bit(words: &[u64; WORDS], i: usize) -> bool {
    words[i / 64] >> (63 - i % 64) & 1 == 1
}

/// Is the alert's ping open in a tick: before it, or opened in it, which changes the level of its ping pair?
fn pinged(t: &Ran, i: usize) -> bool {
    let [before, after] = [&t.before, &t.after].map(|h| &h.links.receivers);
    bit(&before.pending, i) || bit(&before.level, i) != bit(&after.level, i)
}

fn level(t: &Ran, i: usize) -> bool {
    bit(&t.after.links.receivers.level, i)
}

/// The pair, event, cause and answer of an alert in a tick. A rise that is taken answers an open ping, or is an event.
fn alert(edition: Edition, t: &Ran, i: usize) -> (u8, bool, bool, bool) {
    let pair = t.pair(edition, i);
    let taken = pair == 0b10 && place(t, i) == Place::Ready;
    let pinged = pinged(t, i);
    let cause = t.after.alerts.cause[i] == 1;
    (pair, taken && !pinged, cause, taken && pinged)
}

/// Where the receiver of an alert stands as a tick begins.
fn place(t: &Ran, i: usize) -> Place {
    t.before.links.receivers.place(i)
}

/// Place and acknowledge pair of an alert that has a handshake, and of no other unless all are asked for.
fn check_receiver(dump: &Dump, ticks: &[Ran], i: usize, all: bool) {
    let name = |what: &str| format!("alerts.ALERT{i}_{what}");
    let shaken = |t: &Ran| place(t, i) != Place::Ready;
    assert_eq!(dump.has(&name("PLACE")), all || ticks.iter().any(shaken));
    assert_eq!(dump.has(&name("ACK")), dump.has(&name("PLACE")));
    let was_pinged = |t: &Ran| pinged(t, i) || level(t, i);
    let has_ping = all || ticks.iter().any(was_pinged);
    assert_eq!(
        [dump.has(&name("PING")), dump.has(&name("ANSWER"))],
        [has_ping; 2]
    );
    for t in ticks.iter().filter(|_| has_ping) {
        assert_eq!(dump.is_on(&name("PING"), t.number), level(t, i));
    }
    for t in ticks.iter().filter(|_| dump.has(&name("PLACE"))) {
        let stands = match place(t, i) {
            Place::Ready => "Ready",
            Place::Acknowledged => "Acknowledged",
            Place::FirstPause => "Pause_1",
            Place::SecondPause => "Pause_2",
        };
        assert_eq!(dump.at(&name("PLACE"), t.number), stands);
        let acknowledges = stands == "Acknowledged";
        assert_eq!(dump.is_on(&name("ACK"), t.number), acknowledges);
    }
}

/// What is in the dump of alert i: all that the ticks say of it. Nothing only where it never moves.
fn check_alert(dump: &Dump, edition: Edition, ticks: &[Ran], i: usize, all: bool) {
    let name = |what: &str| format!("alerts.ALERT{i}_{what}");
    let moves = |t: &Ran| alert(edition, t, i) != (0b01, false, false, false) || pinged(t, i);
    assert_eq!(dump.has(&name("PAIR")), all || ticks.iter().any(moves));
    if !dump.has(&name("PAIR")) {
        return;
    }
    assert_eq!(dump.at(&name("PAIR"), 0), "1");
    for t in ticks {
        let (pair, event, cause, answer) = alert(edition, t, i);
        assert_eq!(dump.at(&name("PAIR"), t.number), pair.to_string());
        assert_eq!(dump.is_on(&name("EVENT"), t.number), event);
        assert_eq!(dump.is_on(&name("CAUSE"), t.number), cause);
        assert!(!answer || dump.is_on(&name("ANSWER"), t.number));
    }
}

/// Is the line's ping open in a tick: before it, or opened in it? With pairs that are checked it stays open in that tick, or is not sent.
fn line_pinged(edition: Edition, t: &Ran, e: usize) -> bool {
    let open = |h: &Handler| h.links.lines >> e & 1 == 1;
    let opens = match edition.has_receive() {
        true => open(&t.after),
        false => t.before.links.turn.count == 0,
    };
    open(&t.before) || opens
}

/// The pairs of each line that moves; nothing of the others, and of an older edition.
fn check_lines(dump: &Dump, edition: Edition, ticks: &[Ran], all: bool) {
    for e in 0..4 {
        let name = |what: &str| format!("lines.LINE{e}_{what}");
        let sent = |t: &Ran| t.after.links.senders.last >> e & 1 == 1;
        let right = |t: &Ran| {
            if t.before.links.senders.answer >> e & 1 == 1 {
                2
            } else {
                1
            }
        };
        let came = |t: &Ran| t.record[edition.bytes() - 1] >> (6 - 2 * e) & 3;
        let moves = |t: &Ran| sent(t) || right(t) != 1 || came(t) != 1;
        let has = edition.has_receive() && (all || ticks.iter().any(moves));
        assert_eq!(dump.has(&name("ESC")), has);
        for t in ticks.iter().filter(|_| has) {
            assert_eq!(dump.is_on(&name("ESC"), t.number), sent(t));
            assert_eq!(dump.at(&name("BACK"), t.number), came(t).to_string());
            assert_eq!(dump.at(&name("RIGHT"), t.number), right(t).to_string());
            assert_eq!(dump.is_on(&name("WRONG"), t.number), came(t) != right(t));
        }
    }
}

/// The turn that each tick meets, and whether its ping is open in it; nothing where the timer never goes on.
fn check_timer(dump: &Dump, edition: Edition, ticks: &[Ran], all: bool) {
    let ever = ticks.iter().any(|t| t.after.timer.is_on());
    assert_eq!(dump.has("pings.TURN"), ever || all);
    for t in ticks.iter().filter(|_| ever || all) {
        let at = |what: &str| dump.at(&format!("pings.{what}"), t.number);
        let on = |what: &str| at(what) == "1";
        assert_eq!(on("PING_TIMER_EN"), t.after.timer.is_on());
        let links = &t.before.links;
        let whose = t.before.timer.is_on().then(|| links.turn.whose());
        let (turn, open) = match whose {
            None => ("-".to_string(), false),
            Some(Whose::Alert(i)) => (format!("ALERT{i}"), i < t.before.n && pinged(t, i)),
            Some(Whose::Line(e)) => (format!("line_{e}"), line_pinged(edition, t, e)),
        };
        assert_eq!((at("TURN"), on("OPEN")), (&turn[..], open));
        let ends = links.turn.number != t.after.links.turn.number && whose.is_some();
        let closed = dump.has("pings.CLOSED") && on("CLOSED");
        assert_eq!(on("ANSWERED") || on("FAILED") || closed, ends && open);
        assert!(!closed || edition.has_receive() && t.word.0 >> 56 & 15 != 0);
        assert!(!on("ANSWERED") || !on("FAILED"));
        let cause = |t: &Handler, j: usize| t.locals.cause[j] == 1;
        let newly = (0..2).any(|j| cause(&t.after, j) && !cause(&t.before, j));
        assert!(!newly || on("FAILED"));
    }
}

fn check_locals(dump: &Dump, ticks: &[Ran], all: bool) {
    for j in 0..7 {
        let name = |what: &str| format!("alerts.LOC_ALERT{j}_{what}");
        let cause = |t: &Ran| t.after.locals.cause[j] == 1;
        if ticks.iter().any(cause) || all {
            for t in ticks {
                assert_eq!(dump.is_on(&name("CAUSE"), t.number), cause(t));
                let newly = cause(t) && t.before.locals.cause[j] == 0;
                assert!(!newly || dump.is_on(&name("EVENT"), t.number));
            }
        }
    }
}

fn check(bytes: &[u8], all: bool) {
    let (edition, ticks) = ran(bytes);
    let dump = dump(bytes, if all { &["--all"] } else { &[] });
    for t in &ticks {
        check_classes(&dump, t);
        for (k, letter) in LETTERS.iter().enumerate() {
            let name = format!("{}.CLASS{letter}_CLEAR", scope(k));
            assert_eq!(dump.is_on(&name, t.number), clears(edition, t, k));
        }
    }
    let n = ticks.first().map_or(0, |t| t.before.n);
    for i in 0..n {
        check_alert(&dump, edition, &ticks, i, all);
        check_receiver(&dump, &ticks, i, all);
    }
    assert!(!dump.has(&format!("alerts.ALERT{n}_PAIR")));
    check_locals(&dump, &ticks, all);
    check_timer(&dump, edition, &ticks, all && edition.has_timer());
    check_lines(&dump, edition, &ticks, all);
    assert_eq!(dump.end, ticks.len() as u64 + 1);
}

/// Traces that reach deep states, of every edition.
#[test]
fn every_signal_is_what_the_library_gives() {
    for edition in Edition::ALL {
        for case in generated(edition, 11).take(9) {
            let bytes = case.bytes();
            check(&bytes, case.seed % 2 == 0);
        }
    }
}

/// The same dump by the name of a file, which is read twice, and from standard input, which is kept.
#[test]
fn a_file_and_standard_input_give_one_dump() {
    let folder = Folder::new("dump-file");
    for case in generated(Edition::NEWEST, 5).take(3) {
        let bytes = Case {
            records: Some(300),
            ..case
        }
        .bytes();
        let (name, to) = (folder.path("a.trace"), folder.path("a.vcd"));
        fs::write(&name, &bytes).expect("a trace");
        given("wave", &[&name, "-o", &to], &[]);
        let by_name = fs::read_to_string(&to).expect("the dump");
        let (kept, said) = wave(&bytes, "vcd", &[], 0);
        assert!(said.is_empty());
        let names = ["trace: a.trace", "trace: standard input"];
        assert!(by_name.contains(names[0]) && kept.contains(names[1]));
        assert_eq!(by_name.replace(names[0], names[1]), kept);
    }
    assert_eq!(folder.names(), ["a.gtkw", "a.trace", "a.vcd"]);
}

/// Only alerts that move; all of them by --all, and none at N and above.
#[test]
fn alerts_that_never_move_are_left_out() {
    let far = trace("far-alert");
    let some = dump(&far, &[]);
    let alerts = some.names.iter().filter(|name| name.starts_with("alerts."));
    let alerts: Vec<&String> = alerts.collect();
    let wanted = ["PAIR", "EVENT", "CAUSE", "PLACE", "ACK"];
    let wanted = wanted.map(|what| format!("alerts.ALERT247_{what}"));
    assert_eq!(alerts, wanted.iter().collect::<Vec<_>>());
    let all = dump(&far, &["--all"]);
    assert_eq!(all.names.len() - some.names.len(), 7 * 247 + 2 + 2 * 7);
}

#[test]
fn the_head_names_trace_alerts_and_edition() {
    let dump = dump(&trace("far-alert"), &[]);
    assert_eq!(
        dump.comments,
        [
            "trace: standard input",
            "alerts: 248; records of 70 bytes",
            "tick t is the time t; 0: a new handler, all wires at rest"
        ]
    );
    assert_eq!(dump.timescale, "1 s");
    let scopes: Vec<&str> = dump
        .names
        .iter()
        .filter_map(|name| name.split('.').next())
        .collect();
    let mut scopes = scopes;
    scopes.dedup();
    assert_eq!(
        scopes,
        ["alerts", "class_a", "class_b", "class_c", "class_d", "lines", "access", "trace"]
    );
}

#[test]
fn accesses_are_told_in_words() {
    let dump = dump(&trace("refused-accesses"), &[]);
    let told = |tick| {
        ["KIND", "REGISTER", "VALUE", "ANSWER"].map(|what| dump.at(&format!("access.{what}"), tick))
    };
    assert_eq!(told(0), ["none", "-", "-", "-"]);
    assert_eq!(told(1), ["write", "ALERT0_EN", "1", "staged"]);
    assert_eq!(told(2), ["write", "ALERT0_EN", "1", "committed"]);
    assert_eq!(told(7), ["read", "333", "-", "refused:_no_register"]);
    let threshold = |value, answer| ["write", "CLASSA_ACCUM_THRESH", value, answer];
    assert_eq!(told(10), threshold("65536", "refused:_too_wide"));
    assert_eq!(
        told(11),
        ["write", "CLASSA_REGWEN", "0", "refused:_threshold"]
    );
    assert_eq!(told(13), threshold("3", "refused:_differs"));
    assert_eq!(told(16), ["write", "CLASSA_REGWEN", "0", "done"]);
    assert_eq!(told(19), ["malformed", "-", "-", "refused:_malformed"]);
    assert_eq!(told(20), ["read", "CLASSA_ACCUM_CNT", "-", "1"]);
    let dump = common::wave::dump(&trace("broken-seal"), &[]);
    assert_eq!(dump.at("access.ANSWER", 27), "4_Ph0");
    assert_eq!(dump.at("access.VALUE", 14), "0x393f");
}

/// A read that drops a stage says so, and a write that differs makes local alert 5 occur.
#[test]
fn stages_that_are_dropped_are_told() {
    let text = "alerts 1
        write LOC_ALERT5_EN 1
        write LOC_ALERT5_EN 1
        write CLASSA_ACCUM_THRESH 2
        read CLASSA_ACCUM_THRESH
        write CLASSA_ACCUM_THRESH 2
        write CLASSA_ACCUM_THRESH 3
        none";
    let dump = dump(&given("record", &["-"], text.as_bytes()), &[]);
    for (tick, answer) in [(4, "0,_unstaged"), (6, "refused:_differs")] {
        assert_eq!(dump.at("access.ANSWER", tick), answer);
    }
    for tick in 0..=7 {
        let on = |what: &str| dump.is_on(&format!("alerts.LOC_ALERT5_{what}"), tick);
        assert_eq!((on("EVENT"), on("CAUSE")), (tick == 6, tick >= 6));
    }
}

/// A rise that comes too early waits: no event, until the pause is over and the wire still high.
#[test]
fn a_handshake_is_shown_tick_by_tick() {
    let text = "alerts 1
        none wires 0=10
        none
        none wires 0=10
        none wires 0=10
        none wires 0=10
        none
        none";
    let dump = dump(&given("record", &["-"], text.as_bytes()), &[]);
    let places = [
        "Ready",
        "Ready",
        "Acknowledged",
        "Pause_1",
        "Pause_2",
        "Ready",
        "Acknowledged",
        "Pause_1",
    ];
    for (tick, place) in (0..).zip(places) {
        assert_eq!(dump.at("alerts.ALERT0_PLACE", tick), place);
        let on = |what: &str| dump.is_on(&format!("alerts.ALERT0_{what}"), tick);
        assert_eq!(on("ACK"), place == "Acknowledged");
        assert_eq!(on("EVENT"), [1, 5].contains(&tick));
    }
}

/// The stuck sender never moves its wires: its ping pair and the timer show it.
#[test]
fn pings_are_shown_tick_by_tick() {
    let bytes = trace("stuck-sender");
    for all in [false, true] {
        check(&bytes, all);
    }
    let dump = dump(&bytes, &[]);
    let on = |name: &str| -> Vec<u64> { (0..=53).filter(|t| dump.is_on(name, *t)).collect() };
    let span = |from, to| (from..=to).collect::<Vec<u64>>();
    assert_eq!(on("alerts.ALERT0_PING"), span(35, 53));
    assert_eq!(on("alerts.ALERT1_PING"), span(27, 53));
    assert_eq!(on("alerts.ALERT1_ANSWER"), [29]);
    assert_eq!(on("alerts.LOC_ALERT0_EVENT"), [40]);
    assert_eq!(on("pings.PING_TIMER_EN"), span(23, 53));
    let open = [span(27, 29), span(31, 32), span(35, 40), span(50, 51)];
    assert_eq!(on("pings.OPEN"), open.concat());
    assert_eq!(on("pings.ANSWERED"), [29, 32, 51]);
    assert_eq!(on("pings.FAILED"), [40]);
    for (tick, turn) in [
        (23, "-"),
        (24, "ALERT1"),
        (30, "line_0"),
        (33, "ALERT0"),
        (41, "line_1"),
    ] {
        assert_eq!(dump.at("pings.TURN", tick), turn);
    }
}

/// What can be shown is shown, and the end says why there is no more.
#[test]
fn damaged_traces_have_a_dump() {
    let seal = trace("broken-seal");
    for words in [&[][..], &["--all"]] {
        let (text, said) = wave(&seal[..seal.len() - 1], "vcd", words, 1);
        let dump = Dump::parse(&text);
        assert_eq!(said.len(), 1);
        assert!(said[0].starts_with("cut: "), "{said:?}");
        assert_eq!(dump.at("trace.END", 36), said[0].replace(' ', "_"));
        assert_eq!((dump.at("trace.END", 35), dump.end), ("-", 37));
        let (text, said) = wave(&[255, 0], "vcd", words, 1);
        let dump = Dump::parse(&text);
        assert_eq!(said.len(), 1);
        assert!(said[0].starts_with("refused: "), "{said:?}");
        assert_eq!(dump.names, ["trace.END"]);
        assert_eq!(dump.at("trace.END", 0), said[0].replace(' ', "_"));
    }
    let none = common::wave::dump(&start(Edition::NEWEST, 3), &[]);
    assert_eq!((none.at("trace.END", 0), none.end), ("whole", 1));
}

/// A name cannot end its comment, and has no folders.
#[test]
fn a_file_of_any_name() {
    let folder = Folder::new("dump-names");
    let name = folder.path("a $end\n$var.trace");
    let to = folder.path("a.vcd");
    fs::write(&name, trace("broken-seal")).expect("a trace");
    let (_, said) = ended("wave", &[&name, "-o", &to], &[], 0);
    assert!(said.is_empty());
    let dump = Dump::parse(&fs::read_to_string(&to).expect("the dump"));
    assert_eq!(dump.comments[0], "trace: a _end__var.trace");
}

/// The cut cables: what is sent on line 0, what comes back, what was right, and how the ping ends.
#[test]
fn the_lines_pairs_are_shown_tick_by_tick() {
    for (name, sent, wrong, failed, closed) in [
        (
            "cut-cable",
            vec![29, 39, 40, 41],
            vec![30, 32, 40, 42],
            vec![35],
            vec![],
        ),
        (
            "cut-cable-first",
            vec![29, 30, 31, 32],
            vec![30, 32],
            vec![],
            vec![30],
        ),
    ] {
        let bytes = trace(name);
        for all in [false, true] {
            check(&bytes, all);
        }
        let dump = dump(&bytes, &[]);
        let on = |name: &str| -> Vec<u64> { (0..=43).filter(|t| dump.is_on(name, *t)).collect() };
        assert_eq!(on("lines.LINE0_ESC"), sent);
        assert_eq!(on("lines.LINE0_WRONG"), wrong);
        assert_eq!(on("alerts.LOC_ALERT3_EVENT"), wrong);
        assert_eq!(on("pings.FAILED"), failed);
        assert_eq!(on("pings.CLOSED"), closed);
        assert_eq!(on("lines.LINE1_WRONG"), []);
        for tick in 0..=43 {
            assert_eq!(dump.at("lines.LINE0_BACK", tick), "1");
        }
    }
}

/// The signals that a view names, without the range of a pair.
fn viewed(view: &str) -> Vec<String> {
    let lines = view.lines();
    lines
        .filter(|line| !line.starts_with(['[', '*', '@', '-']))
        .map(|line| line.trim_end_matches("[1:0]").to_string())
        .collect()
}

/// The view beside a dump names each of its signals once, in its scope, accesses first.
#[test]
fn a_view_stands_beside_the_dump() {
    let folder = Folder::new("view");
    let (to, view) = (folder.path("a.vcd"), folder.path("a.gtkw"));
    for name in examples("trace") {
        let trace = example(&format!("{name}.trace"));
        given("wave", &[&trace, "-o", &to], &[]);
        let dump = Dump::parse(&fs::read_to_string(&to).expect("the dump"));
        let text = fs::read_to_string(&view).expect("the view");
        assert!(text.starts_with("[*] tarravane: "));
        assert!(text.contains("\n[dumpfile] \"a.vcd\"\n[savefile] \"a.gtkw\"\n"));
        let (mut shown, mut names) = (viewed(&text), dump.names.clone());
        let first = [
            "access.KIND",
            "access.REGISTER",
            "access.VALUE",
            "access.ANSWER",
        ];
        assert_eq!(shown[..4], first);
        shown.sort();
        names.sort();
        assert_eq!(shown, names);
        let pairs = names.iter().filter(|name| dump.signals[*name].bits == 2);
        for pair in pairs {
            assert!(text.contains(&format!("\n{pair}[1:0]\n")), "{pair}");
        }
    }
}

/// What a user has saved under the view's name stays.
#[test]
fn a_view_of_a_user_is_left() {
    let folder = Folder::new("user-view");
    let (to, view) = (folder.path("a.vcd"), folder.path("a.gtkw"));
    let saved = "[*] GTKWave Analyzer\n";
    fs::write(&view, saved).expect("a view");
    let (_, said) = ended("wave", &[&example("broken-seal.trace"), "-o", &to], &[], 0);
    let left = format!("{view} is not of this tool: it is left as it is");
    assert_eq!(said, [left]);
    assert_eq!(fs::read_to_string(&view).expect("the view"), saved);
}
