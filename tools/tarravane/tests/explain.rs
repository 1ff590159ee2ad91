//! `explain` as a technician runs it.
mod common;

use common::records::{all_at, configure, off_rest, record, record_64, start, REST};
use common::{ended, example, explained, given, refused};
use handler::registers::{Field, Setting};
use handler::{Edition, Wires};

/// The rows of a run that goes well, without the two lines above them.
fn rows(words: &[&str], input: &[u8]) -> Vec<String> {
    let lines = explained(words, input);
    assert!(lines.iter().all(|line| line.len() <= 120));
    lines[2..].to_vec()
}

fn numbers(rows: &[String]) -> Vec<u64> {
    rows.iter()
        .map(|row| {
            row.split_whitespace()
                .next()
                .expect("a number")
                .parse()
                .expect("a number")
        })
        .collect()
}

#[test]
fn the_broken_seal_is_told_tick_by_tick() {
    let rows = rows(&[&example("broken-seal.trace")], &[]);
    assert_eq!(numbers(&rows), (1..=37).collect::<Vec<u64>>());
    let has = |tick: usize, words: &[&str]| {
        words
            .iter()
            .for_each(|word| assert!(rows[tick - 1].contains(word), "{}", rows[tick - 1]))
    };
    has(1, &["write ALERT0_EN 1", "staged", "---- ----"]);
    has(2, &["write ALERT0_EN 1", "committed", "---- ----"]);
    has(14, &["write CLASSA_CTRL 0x393f", "committed"]);
    has(15, &["write CLASSA_REGWEN 0", "done"]);
    has(16, &["none wires 0=10 ", "Idle 0/1", "ALERT0"]);
    has(17, &["read CLASSA_ACCUM_CNT", " 1 ", "Idle     [ack 0]"]);
    has(18, &["none", "Idle     [pause1 0]"]);
    has(19, &["none", "Idle     [pause2 0]"]);
    has(20, &["none wires 0=10 ", "Idle 0/2"]);
    has(24, &["---- 0---", "Ph0 1/3"]);
    has(26, &["write CLASSA_CLR 1", "refused: locked", "Ph0 3/3"]);
    has(27, &["read CLASSA_STATE", "4 Ph0", "---- -1--", "Ph1 1/3"]);
    has(36, &["7 Ph3", "---- ----", "Term 0/3"]);
    has(37, &["3 Term", "---- ----"]);
    let shaken = rows.iter().filter(|row| row.ends_with(" 0]"));
    assert_eq!(shaken.count(), 9);
}

/// A rise in the pause is no event, and waits for its end; one that is gone before is lost.
#[test]
fn a_rise_that_waits_is_told() {
    let text = "alerts 1
        write ALERT0_EN 1
        write ALERT0_EN 1
        none wires 0=10             # 3: taken
        none
        none wires 0=10             # 5: it waits, and is lost
        none
        none wires 0=10             # 7: taken
        none
        none wires 0=10             # 9: it waits
        none wires 0=10
        none wires 0=10             # 11: taken
        none wires 0=10";
    let trace = given("record", &["-"], text.as_bytes());
    let rows = rows(&["-"], &trace);
    for (row, end) in rows[2..].iter().zip([
        "ALERT0",
        "[ack 0]",
        "[pause1 0]",
        "[pause2 0]",
        "Idle",
        "[ack 0]",
        "[pause1 0]",
        "[pause2 0]",
        "Idle",
        "[ack 0]",
    ]) {
        assert!(row.ends_with(end), "{row}");
    }
    let summary = explained(&["--summary", "-"], &trace).join("\n");
    let events =
        "  ALERT0: 3 events, first at 3, last at 11; 3 while its class was off, at 3, 7, 11\n";
    assert!(summary.contains(events), "{summary}");
}

#[test]
fn refusals_are_told_in_words() {
    let rows = rows(&[&example("refused-accesses.trace")], &[]).join("\n");
    for word in [
        "no register",
        "write only",
        "read only",
        "too wide",
        "locked",
        "malformed",
        "differs",
        "threshold",
    ] {
        assert!(rows.contains(&format!("refused: {word}")), "{word}");
    }
}

#[test]
fn a_range_of_ticks() {
    let seal = example("broken-seal.trace");
    assert_eq!(
        numbers(&rows(&["--from", "13", "--to", "15", &seal], &[])),
        [13, 14, 15]
    );
    assert_eq!(numbers(&rows(&[&seal, "--from", "36"], &[])), [36, 37]);
    assert_eq!(numbers(&rows(&[&seal, "--to", "1"], &[])), [1]);
}

/// No row is no fault, but it is said.
#[test]
fn a_range_past_the_end_is_told() {
    let seal = example("broken-seal.trace");
    for (words, why) in [
        (
            &["--from", "38"][..],
            "--from 38: the trace has only 37 ticks",
        ),
        (
            &["--from", "99", "--to", "100", "--only-changes"],
            "--from 99: the trace has only 37 ticks",
        ),
    ] {
        let (rows, said) = ended("explain", &[words, &[&seal]].concat(), &[], 0);
        assert_eq!(String::from_utf8_lossy(&rows).lines().count(), 2);
        assert_eq!(said, [why]);
    }
    let one = [vec![1], record_64(0, 0, 0, REST)].concat();
    for (bytes, why) in [
        (&one[..], "--from 2: the trace has only 1 tick"),
        (&[1], "--from 2: the trace has only 0 ticks"),
    ] {
        let (_, said) = ended("explain", &["-", "--from", "2"], bytes, 0);
        assert_eq!(said, [why]);
    }
    given("explain", &["-", "--from", "1"], &one);
}

#[test]
fn only_changes() {
    let seal = rows(&["--only-changes", &example("broken-seal.trace")], &[]);
    let configured = [2, 4, 6, 8, 10, 12, 14];
    let after = [15, 16, 20, 24, 26, 27, 30, 33, 36];
    assert_eq!(numbers(&seal)[..7], configured);
    assert_eq!(numbers(&seal)[7..], after);
    assert!(seal[11].contains("write CLASSA_CLR 1              refused: locked"));
    let refused = rows(&["--only-changes", &example("refused-accesses.trace")], &[]);
    let wanted = [2, 4, 6, 7, 8, 9, 10, 11, 13, 15, 16, 17, 18, 19];
    assert_eq!(numbers(&refused), wanted);
}

/// A theft without an escalation: what is switched off and on again, the event meanwhile and equal wires are changes.
#[test]
fn what_was_switched_off_is_a_change() {
    let theft = rows(&["--only-changes", &example("switched-off.trace")], &[]);
    let wanted = [2, 4, 6, 8, 10, 12, 14, 17, 19, 20, 25, 27, 29, 35, 36, 39];
    assert_eq!(numbers(&theft), wanted);
    assert!(theft[7].contains("write ALERT0_EN 0               committed"));
    assert!(theft[9].ends_with(" Idle     [disabled 0]"), "{}", theft[9]);
    assert!(theft[12].contains("none wires 1=11"));
}

/// Each register that configures, where it gets another value; the first of two writes and a value that stands are none.
#[test]
fn each_setting_is_a_change() {
    for edition in Edition::ALL {
        let map = edition.registers();
        let alerts = [0, 1, map.alerts - 1].into_iter();
        let alerts = alerts.flat_map(|i| [Field::En, Field::Class].map(|of| map.alert(of, i)));
        let locals = (0..7).flat_map(|j| [Field::En, Field::Class].map(|of| map.local(of, j)));
        let classes = (0..4).flat_map(|k| Setting::SHADOWED.map(|setting| map.class(k, setting)));
        let timer = [5].into_iter().filter(|_| edition.has_timer());
        for register in alerts.chain(locals).chain(classes).chain(timer) {
            let bytes = [
                start(edition, map.alerts as u8),
                configure(edition, register, 1),
                configure(edition, register, 1),
                record(edition, 1, register.into(), 0, Wires::REST),
            ]
            .concat();
            let rows = rows(&["--only-changes", "-"], &bytes);
            assert_eq!(numbers(&rows), [2], "register {register}");
        }
        let once = [1, 6].into_iter();
        for register in once.filter(|number| *number == 1 || edition.has_timer()) {
            let write = record(edition, 2, register, 1, Wires::REST);
            let bytes = [start(edition, 1), write.repeat(2)].concat();
            assert_eq!(numbers(&rows(&["--only-changes", "-"], &bytes)), [1]);
        }
    }
}

/// Equal wires of alerts that the handler has, enabled or not: where they begin and end.
#[test]
fn equal_wires_are_a_change() {
    let text = "alerts 2\nnone\nnone wires 1=11\nnone wires 1=00\nnone wires 0-1=11
        none wires 0=11\nnone wires 2-9=11\nnone wires 2-9=11\n";
    let (trace, _) = ended("record", &["-"], text.as_bytes(), 0);
    assert_eq!(
        numbers(&rows(&["--only-changes", "-"], &trace)),
        [2, 4, 5, 6]
    );
}

/// Every lock that falls is a change; a lock that has fallen and a 1 that is written to one that has not are none.
#[test]
fn each_lock_is_a_change() {
    for edition in Edition::ALL {
        let map = edition.registers();
        let locals = (0..7).map(|j| map.local(Field::Regwen, j));
        let alerts = [0, 1, 31, 63, 64, 191, 247].into_iter();
        let alerts = alerts.filter(|i| *i < map.alerts);
        let classes = (0..4)
            .flat_map(|k| [Setting::Regwen, Setting::ClrRegwen].map(|lock| map.class(k, lock)));
        let alerts = alerts.map(|i| map.alert(Field::Regwen, i));
        for register in locals.chain(alerts).chain(classes) {
            let one = |kind, value| record(edition, kind, register.into(), value, Wires::REST);
            let records = [one(2, 1), one(2, 0), one(2, 0), one(1, 0)].concat();
            let bytes = [start(edition, map.alerts as u8), records].concat();
            let rows = rows(&["--only-changes", "-"], &bytes);
            assert_eq!(numbers(&rows), [2], "register {register}");
        }
    }
}

#[test]
fn standard_input() {
    let mut bytes = vec![1];
    bytes.extend(record_64(1, 321, 0, REST));
    let one = rows(&["-"], &bytes);
    assert_eq!(one.len(), 1);
    assert!(one[0].contains("read CLASSA_CTRL") && one[0].contains("0x393c"));
    assert!(rows(&["-"], &[64]).is_empty());
    assert!(rows(&["-"], &[255, 248]).is_empty());
}

#[test]
fn a_file_may_have_the_name_of_an_option() {
    let seal = example("broken-seal.trace");
    assert_eq!(rows(&["--", &seal], &[]).len(), 37);
    assert_eq!(rows(&["--to", "3", "--", &seal], &[]).len(), 3);
    let said = refused("explain", &["--", "--help"], &[]);
    assert!(said.starts_with("cannot open --help: "), "{said}");
}

#[test]
fn bad_input_is_one_line_and_status_2() {
    let folder = example("");
    let bad: [&[&str]; 7] = [
        &["no-such.trace"],
        &[&folder],
        &[],
        &["-", "--from", "x"],
        &["-", "--all"],
        &["-", "-x"],
        &["-", "--summary", "--wide"],
    ];
    for words in bad {
        refused("explain", words, &[1]);
    }
}

#[test]
fn a_text_is_no_trace() {
    let why = "this is a text: ./tarravane record makes a trace of it";
    let text = example("broken-seal.txt");
    for words in [&[&text[..]][..], &[&text, "--summary"]] {
        assert_eq!(refused("explain", words, &[]), format!("{text}: {why}"));
    }
    let said = refused("explain", &["-"], b"alerts 2\nnone\n");
    assert_eq!(said, format!("-: {why}"));
    // 35 is #, and a trace of 35 alerts is one.
    let trace = [vec![35], record_64(1, 321, 0, REST)].concat();
    assert_eq!(rows(&["-"], &trace).len(), 1);
}

/// All alerts at once, in every class, with long counts: each row fits, and the causes that do not are counted.
#[test]
fn a_crowded_tick_fits() {
    for edition in Edition::ALL {
        let map = edition.registers();
        let alerts = map.alerts;
        let write =
            |register: u16, value: u64, wires| record(edition, 2, register.into(), value, wires);
        let mut bytes = start(edition, alerts as u8);
        for i in 0..alerts {
            bytes.extend(configure(edition, map.alert(Field::En, i), 1));
            bytes.extend(configure(edition, map.alert(Field::Class, i), i as u32 % 4));
        }
        for k in 0..4 {
            let long = map.class(k, Setting::Phase0Cyc);
            bytes.extend(configure(edition, long, u32::MAX));
            bytes.extend(configure(edition, map.class(k, Setting::Ctrl), 0x393F));
        }
        let [thresh, count] = [Setting::AccumThresh, Setting::EscCnt].map(|s| map.class(0, s));
        let raised = write(thresh, u64::from(u32::MAX), all_at(edition, 0b10));
        let read = record(edition, 1, count.into(), 0, Wires::REST);
        bytes.extend([raised, read.repeat(3)].concat().repeat(5_500));
        let (rows, first) = (rows(&["-"], &bytes), 2 * (2 * alerts + 8));
        assert_eq!(rows.len(), first + 22_000);
        assert!(rows[first].contains(" +"), "{}", rows[first]);
        let last = &rows[first + 21_999];
        // Line 0 is on, and its receiver never answers.
        let counts = match edition.has_receive() {
            true => "P0 22k/5k",
            false => "Ph0 22000/5500",
        };
        assert!(last.contains(counts), "{last}");
    }
}

/// Wires that have no room are counted: first beside whole words, then in short form.
#[test]
fn wires_that_do_not_fit_are_counted() {
    for edition in Edition::ALL {
        let (map, all) = (edition.registers(), edition.alerts());
        let ctrl = u64::from(map.class(0, Setting::Ctrl));
        // No two neighbours are at the same levels, and none is at rest.
        let levels: Vec<(usize, u8)> = (0..all).map(|i| (i, [0b10, 0b00][i % 2])).collect();
        let crowd = off_rest(&levels);
        let write = |register: u16, value: u64| record(edition, 2, register.into(), value, crowd);
        let mut bytes = start(edition, all as u8);
        bytes.extend(record(edition, 1, ctrl, 0, off_rest(&[(all - 1, 0b11)])));
        bytes.extend(record(edition, 1, ctrl, 0, crowd));
        for k in 0..4 {
            let long = u64::from(u32::MAX);
            bytes.extend(write(map.class(k, Setting::TimeoutCyc), long).repeat(2));
            bytes.extend(write(map.class(k, Setting::Ctrl), 0x393F).repeat(2));
        }
        bytes.extend(write(2, 15));
        let thresh = map.class(3, Setting::AccumThresh);
        bytes.extend(write(thresh, u64::from(u32::MAX)).repeat(20_000));
        let rows = rows(&["-"], &bytes);
        for (row, said) in [
            (&rows[0], format!(" read CLASSA_CTRL wires {}=11 ", all - 1)),
            (&rows[1], format!(" read CLASSA_CTRL wires ~{all} ")),
            (
                &rows[rows.len() - 1],
                format!(" w CLASSD_ACCUM_THRESH 4294967295 ~{all}: too wide "),
            ),
            (&rows[rows.len() - 1], " To 20k/0 ".to_string()),
        ] {
            assert!(row.contains(&said), "{row}");
        }
    }
}

/// The columns at which a row's interrupts and lines stand.
fn outputs(row: &str) -> &str {
    &row[60..69]
}

/// Beyond a million ticks and at the last of 248 alerts what goes out stands in its columns; wires at N and above are not shown.
#[test]
fn rows_keep_their_columns() {
    let edition = Edition::NEWEST;
    let map = edition.registers();
    let mut bytes = start(edition, 248);
    let calm = record(edition, 0, 0, 0, Wires::REST);
    bytes.extend(calm.repeat(1_000_000));
    let last = map.alert(Field::Class, 247);
    bytes.extend(configure(edition, last, 3));
    bytes.extend(record(
        edition,
        2,
        last.into(),
        2,
        off_rest(&[(247, 0b10), (100, 0b11)]),
    ));
    bytes.extend(configure(
        edition,
        map.class(3, Setting::Phase3Cyc),
        u32::MAX,
    ));
    let rows = rows(&["-", "--from", "1000000"], &bytes);
    assert_eq!(rows.len(), 6);
    for row in &rows {
        assert_eq!(outputs(row), "---- ----", "{row}");
        assert_eq!(&row[70..74], "Idle");
    }
    assert!(rows[3].starts_with("1000003 write ALERT247_CLASS 2 wires 100=11 247=10 staged "));
    assert!(rows[5].starts_with("1000005 write CLASSD_PHASE3_CYC 4294967295 committed "));
    let few = [
        start(edition, 100),
        record(edition, 0, 0, 0, off_rest(&[(99, 0b11), (100, 0b11)])),
    ];
    let row = self::rows(&["-", "--wide"], &few.concat()).remove(0);
    assert!(row.starts_with("     1 none wires 99=11   "), "{row}");
}

/// What becomes of a stage is in the answer, how many are open at the end of the row; a drop is a change.
#[test]
fn stages_are_told() {
    for edition in Edition::ALL {
        let map = edition.registers();
        let [ctrl, length] = [Setting::Ctrl, Setting::Phase0Cyc].map(|s| map.class(0, s));
        let regwen = map.class(0, Setting::Regwen);
        let write = |register: u16, value| record(edition, 2, register.into(), value, Wires::REST);
        let read = |register: u16| record(edition, 1, register.into(), 0, Wires::REST);
        let long = u64::from(u32::MAX);
        let bytes = [
            start(edition, 1),
            configure(edition, map.local(Field::En, 5), 1),
            [write(ctrl, 1), write(length, long), read(ctrl)].concat(),
            [write(ctrl, 1), write(ctrl, 0x4000), write(ctrl, 3)].concat(),
            [write(length, long), read(length), write(ctrl, 5)].concat(),
            [write(regwen, 0), write(ctrl, 5), read(ctrl)].concat(),
        ]
        .concat();
        let all = rows(&["-"], &bytes);
        for (row, (said, end)) in all.iter().zip([
            ("write LOC_ALERT5_EN 1           staged ", "[1 staged]"),
            ("write LOC_ALERT5_EN 1           committed ", "Idle"),
            ("write CLASSA_CTRL 0x1           staged ", "[1 staged]"),
            ("write CLASSA_PHASE0_CYC 4294967295 staged  ", "[2 staged]"),
            (
                "read CLASSA_CTRL                0x393c, unstaged ",
                "[1 staged]",
            ),
            ("write CLASSA_CTRL 0x1           staged ", "[2 staged]"),
            (
                "write CLASSA_CTRL 0x4000        refused: too wide ",
                "[2 staged]",
            ),
            (
                "write CLASSA_CTRL 0x3: refused: differs ",
                "LOC_ALERT5 [1 staged]",
            ),
            ("write CLASSA_PHASE0_CYC 4294967295 committed ", "Idle"),
            ("read CLASSA_PHASE0_CYC          4294967295 ", "Idle"),
            ("write CLASSA_CTRL 0x5           staged ", "[1 staged]"),
            ("write CLASSA_REGWEN 0           done ", "[1 staged]"),
            ("write CLASSA_CTRL 0x5           refused: locked ", "Idle"),
            ("read CLASSA_CTRL                0x393c ", "Idle"),
        ]) {
            assert!(row.contains(said) && row.ends_with(end), "{row}");
        }
        let changes = rows(&["--only-changes", "-"], &bytes);
        assert_eq!(numbers(&changes), [2, 5, 7, 8, 9, 12, 13]);
        let wide = &explained(&["--wide", "-"], &bytes)[2 + 3];
        let list = "[staged: CLASSA_CTRL 0x1, CLASSA_PHASE0_CYC 4294967295]";
        assert!(wide.ends_with(list), "{wide}");
    }
}

/// Any way to ask gives the same text, which has these words and not the other command's.
fn helps(command: &str, own: &[&str], other: &str) {
    for words in [&["--help"][..], &["-h"], &["missing", "--help"]] {
        let text = String::from_utf8(given(command, words, &[])).expect("text");
        assert!(text.starts_with(&format!("usage: ./tarravane {command} ")));
        assert!(text.contains("Exit status:") && !text.contains("tarravane-cli"));
        own.iter()
            .for_each(|word| assert!(text.contains(word), "{word}"));
        assert!(!text.contains(other));
        let widest = text.lines().max_by_key(|line| line.len()).expect("lines");
        assert!(widest.len() <= 104, "{widest}");
    }
}

#[test]
fn each_command_has_its_own_help() {
    let options = ["--from", "--to", "--only-changes", "--wide", "--summary"];
    helps("explain", &options, "--back");
    for edition in Edition::ALL {
        let records = format!("records of {} bytes", edition.bytes());
        helps("explain", &[&records], "-o TRACE");
        let edition = format!("edition {}", edition.name());
        helps("record", &[&edition], "--only-changes");
    }
    helps("record", &["--back", "-o", "raw HEX", "cut HEX"], "--wide");
    let staged = ["[2 staged]", "committed", "refused: differs", "unstaged"];
    helps("explain", &staged, "two equal lines");
    helps("record", &["two equal lines"], "unstaged");
    let receivers = ["[ack 0]", "[pause1 0]", "[pause2 0]", "^3"];
    helps("explain", &receivers, "ALERT0_ACK");
    helps("wave", &["ALERT0_PLACE", "ALERT0_ACK"], "[ack 0]");
    let pings = [
        "[turn 4 in 9]",
        "[ping 4]",
        "[answer 4]",
        "[fail 4]",
        "[unsent 4]",
        "@pft",
    ];
    helps("explain", &pings, "TURN");
    helps(
        "wave",
        &["PING_TIMER_EN", "TURN", "ANSWERED", "FAILED"],
        "[turn",
    );
    helps("record", &["entropy WORD", "answers E"], "[turn");
    helps("record", &["receive E=PQ", "sound"], "[back");
    let pairs = ["[esc 0]", "[back 0: 01, not 10]", "!2", "[closed line 2]"];
    helps("explain", &pairs, "LINE0");
    let pairs = [
        "LINE0_ESC",
        "LINE0_BACK",
        "LINE0_RIGHT",
        "LINE0_WRONG",
        "CLOSED",
    ];
    helps("wave", &pairs, "[back");
    let help = String::from_utf8(given("explain", &["--help"], &[])).expect("text");
    let order = "The answer is given before the tick's events;";
    assert!(help.contains(order));
}
