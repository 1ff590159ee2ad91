//! What comes back on the escalation wires, and local 3. No ping is open here.

mod common;

use common::driven::{driven, play, run, shown};
use common::escalation::{receiving, right};
use common::{new, tick, Numbers, LINES, REST, SILENT};
use reference::{Access, LinePairs};

/// Checks a wave of each line from reset.
fn check(lines: &str, answers: &str, sent: &str, right: &str, faults: &str) {
    for e in LINES {
        let reached = play(&mut driven(), e, lines, answers);
        assert_eq!(reached, shown(sent, right, faults), "{lines} of {e}");
    }
}

#[test]
fn the_picture_of_a_missing_answer() {
    // The picture leaves out the third fault; what is right does not change
    // with what came back.
    check(
        "011111100",
        "000000000",
        "011111100",
        "001010100",
        "..3.3.3..",
    );
}

#[test]
fn equal_wires_always_fail() {
    for equal in ["x", "X"] {
        let answers = equal.repeat(9);
        check("011111100", &answers, "011111100", "001010100", "333333333");
        check("000000000", &answers, "000000000", "000000000", "333333333");
    }
    // The picture's direct failure, in ticks 2 and 3.
    check("00000", "..XX.", "00000", "00000", "..33.");
}

#[test]
fn a_wrong_answer_fails_in_its_tick_alone() {
    for at in 0..9 {
        let mut answers = vec![b'.'; 9];
        let mut faults = answers.clone();
        (answers[at], faults[at]) = (b'!', b'3');
        let text = |bytes: Vec<u8>| String::from_utf8(bytes).unwrap();
        check(
            "011111000",
            &text(answers),
            "011111000",
            "001010100",
            &text(faults),
        );
    }
}

#[test]
fn an_answer_late_by_one_tick_fails() {
    let mut h = driven();
    let mut late = SILENT;
    let mut faults = String::new();
    for line in [0, 1, 1, 1, 1, 0, 0, 0] {
        let coming = right(&h);
        h.locals[3].cause = 0;
        run(&mut h, line, receiving(REST, late));
        faults.push(if h.locals[3].cause == 1 { '3' } else { '.' });
        late = coming;
    }
    assert_eq!(faults, "..3333..");
}

#[test]
fn each_line_is_checked_by_itself() {
    let mut numbers = Numbers(71);
    let mut met = [0; 2];
    let mut h = driven();
    for _ in 0..4000 {
        let mut receive = right(&h);
        let mut fails = false;
        for e in 0..4 {
            if numbers.below(8) == 0 {
                let pair = (numbers.below(2) == 1, numbers.below(2) == 1);
                fails |= pair != receive.pair(e);
                receive = receive.with(e, pair);
            }
        }
        h.locals[3].cause = 0;
        let lines = (numbers.next() & numbers.next()) as u8 & 15;
        run(&mut h, lines, receiving(REST, receive));
        assert_eq!(h.locals[3].cause == 1, fails);
        met[usize::from(fails)] += 1;
    }
    assert!(met.iter().all(|many| *many > 1000), "{met:?}");
}

#[test]
fn a_fault_is_an_event_of_local_3s_class() {
    let silent = LinePairs { pos: 0, neg: 0 };
    for k in 0..4u8 {
        let mut h = new(1);
        (h.locals[3].en, h.locals[3].class) = (1, k);
        let class = usize::from(k);
        (h.classes[class].ctrl, h.classes[class].accum_thresh) = (0x393D, 1);
        h.intr_enable = 15;
        // All four lines have equal wires, and it is one event.
        let ticked = tick(&mut h, Access::None, receiving(REST, silent));
        assert_eq!((ticked.interrupts, ticked.lines), (1 << k, 0));
        assert_eq!((h.locals[3].cause, h.classes[class].accum_cnt), (1, 1));
        let ticked = tick(&mut h, Access::None, receiving(REST, silent));
        assert_eq!(ticked.lines, 1);
        assert_eq!(ticked.escalation, LinePairs { pos: 1, neg: 14 });
        let causes = h.locals.map(|local| local.cause);
        assert_eq!(causes, [0, 0, 0, 1, 0, 0, 0]);
    }
}

#[test]
fn a_disabled_local_3_does_not_occur() {
    let mut h = driven();
    h.locals[3].en = 0;
    let before = h.clone();
    for byte in 0..=255 {
        let receive = LinePairs::from_byte(byte);
        run(&mut h, 0, receiving(REST, receive));
        assert_eq!(h, before);
    }
    // Its EN is that after the tick's access.
    let access = Access::Write {
        register: 27,
        value: 1,
    };
    for cause in [0, 1] {
        let sample = receiving(REST, LinePairs { pos: 0, neg: 0 });
        assert_eq!(tick(&mut h, access, sample).answer, 0);
        assert_eq!(h.locals[3].cause, cause);
    }
}

#[test]
fn a_refused_access_does_not_stop_the_check() {
    let mut h = driven();
    let sample = receiving(REST, LinePairs { pos: 15, neg: 15 });
    assert_eq!(tick(&mut h, Access::Malformed, sample).answer, -5);
    assert_eq!(h.locals[3].cause, 1);
}

#[test]
fn bits_4_to_7_are_no_wires() {
    for high in [0x10, 0x80, 0xF0] {
        let mut h = driven();
        let receive = LinePairs {
            pos: high,
            neg: 0xF,
        };
        run(&mut h, 1, receiving(REST, receive));
        let receive = LinePairs {
            pos: 1,
            neg: high | 0xE,
        };
        let ticked = run(&mut h, 0, receiving(REST, receive));
        assert_eq!(h.locals[3].cause, 0);
        assert_eq!(ticked.escalation, LinePairs { pos: 1, neg: 14 });
    }
}
