//! Refusal 12 and the local alert that comes with it, local 5.

mod common;

use common::shadowed::{guard, held, open, shadowed};
use common::{configure, event, idle, new, raised, read, ready, tick, with, write, ALERT0, REST};
use reference::class::{IDLE, PHASE0, TIMEOUT};
use reference::{Access, Answering, Handler, Place, Sample, Sender, Stand, Ticked};

/// Local 5's EN, CLASS and CAUSE.
const EN: u16 = 29;
const CLASS: u16 = 37;
const CAUSE: u16 = 45;

/// A handler with local 5 enabled in class 1, which has this CTRL.
fn watched(n: u64, ctrl: u32) -> Handler {
    let mut h = new(n);
    configure(&mut h, EN, 1);
    configure(&mut h, CLASS, 1);
    configure(&mut h, 1297, ctrl);
    assert_eq!(write(&mut h, 1, 15), 0);
    h
}

/// A tick with a write and these wires.
fn write_with(h: &mut Handler, register: u16, value: u32, sample: Sample) -> Ticked {
    tick(h, Access::Write { register, value }, sample)
}

/// Two differing writes of a register that nothing here depends on, the last
/// length of class 3; the second with these wires.
fn differ(h: &mut Handler, sample: Sample) -> Ticked {
    assert_eq!(write(h, 1338, 8), 0);
    let ticked = write_with(h, 1338, 9, sample);
    assert_eq!(ticked.answer, -12);
    ticked
}

// Local 5 occurs

#[test]
fn it_sets_its_cause_and_starts_its_class() {
    let mut h = watched(1, 0x393D);
    let ticked = differ(&mut h, REST);
    assert_eq!((ticked.interrupts, ticked.lines), (2, 1));
    assert_eq!(h.intr_state, 2);
    let class = h.classes[1];
    assert_eq!(
        (class.state, class.esc_cnt, class.accum_cnt),
        (PHASE0, 1, 1)
    );
    assert_eq!(read(&mut h, CAUSE), 1);
    // Like any cause it goes by a written 1.
    assert_eq!(write(&mut h, CAUSE, 1), 0);
    assert_eq!(read(&mut h, CAUSE), 0);
}

#[test]
fn every_shadowed_register_makes_it_occur() {
    for n in [1, 248] {
        for (number, _) in shadowed(n) {
            let mut h = watched(n, 0x393D);
            let before = held(&h, number);
            assert_eq!(write(&mut h, number, 1), 0);
            assert_eq!(write(&mut h, number, 0), -12, "{number}");
            assert_eq!(h.locals[5].cause, 1, "{number}");
            assert_eq!((h.intr_state, h.classes[1].state), (2, PHASE0), "{number}");
            assert_eq!((held(&h, number), open(&h)), (before, 0), "{number}");
        }
    }
}

#[test]
fn it_changes_no_more_than_its_event() {
    let mut h = watched(1, 0x393D);
    let mut expected = h.clone();
    expected.locals[5].cause = 1;
    expected.intr_state = 2;
    expected.classes[1].accum_cnt = 1;
    expected.classes[1].state = PHASE0;
    expected.classes[1].esc_cnt = 1;
    // Line 0 comes on.
    expected.senders[0] = Sender {
        on: true,
        first: true,
        receiver: Answering {
            stand: Stand::First,
            level: true,
        },
    };
    differ(&mut h, REST);
    assert_eq!(h, expected);
}

#[test]
fn it_is_counted_and_triggers_at_the_threshold() {
    let mut h = watched(1, 0x393D);
    configure(&mut h, 1301, 2);
    for count in 1..=2 {
        let ticked = differ(&mut h, REST);
        assert_eq!((ticked.interrupts, ticked.lines), (2, 0));
        let class = h.classes[1];
        assert_eq!((class.state, class.accum_cnt), (IDLE, count));
    }
    assert_eq!(differ(&mut h, REST).lines, 1);
    assert_eq!((h.classes[1].state, h.classes[1].accum_cnt), (PHASE0, 3));
}

#[test]
fn it_locks_the_clear_and_makes_a_timeout_due() {
    let mut h = watched(1, 0x393F);
    differ(&mut h, REST);
    assert_eq!((h.classes[1].state, h.classes[1].clr_regwen), (PHASE0, 0));

    let mut h = watched(1, 0x393D);
    configure(&mut h, 1301, 9);
    configure(&mut h, 1302, 1);
    differ(&mut h, REST);
    assert_eq!((h.classes[1].state, h.classes[1].esc_cnt), (TIMEOUT, 1));
    idle(&mut h);
    assert_eq!(h.classes[1].state, PHASE0);
}

#[test]
fn a_class_that_is_off_has_no_event_of_it() {
    // Without EN, and with EN but no line.
    for ctrl in [0x393C, 0x3901] {
        let mut h = watched(1, ctrl);
        assert_eq!(differ(&mut h, REST).interrupts, 0);
        assert_eq!(h.locals[5].cause, 1);
        assert_eq!((h.intr_state, h.classes[1].accum_cnt), (0, 0));
        assert_eq!(h.classes[1].state, IDLE);
    }
}

#[test]
fn with_other_alerts_it_is_one_event() {
    let mut h = ready(2, 0x393D);
    h.classes[0].accum_thresh = 9;
    configure(&mut h, EN, 1);
    configure(&mut h, 26, 1);
    // Alert 0 comes and alert 1 has equal wires.
    differ(&mut h, with(raised(&[0]), 1, (1, 1)));
    assert_eq!(h.classes[0].accum_cnt, 1);
    assert_eq!((h.alerts[0].cause, h.alerts[1].cause), (1, 0));
    assert_eq!(h.locals.map(|local| local.cause), [0, 0, 1, 0, 0, 1, 0]);
}

#[test]
fn the_samples_of_the_refused_tick_count() {
    let mut h = ready(1, 0x393D);
    configure(&mut h, EN, 1);
    configure(&mut h, CLASS, 1);
    differ(&mut h, ALERT0);
    // Class 1 is off, so only the alert starts a class.
    assert_eq!((h.alerts[0].cause, h.locals[5].cause), (1, 1));
    assert_eq!((h.intr_state, h.classes[0].state), (1, PHASE0));
    assert_eq!(h.receivers[0].place, Place::Acknowledged);
}

// It does not occur

#[test]
fn a_disabled_one_never_occurs() {
    let mut h = watched(1, 0x393D);
    configure(&mut h, EN, 0);
    // All the others enabled: none of them takes its place.
    for j in [0, 1, 2, 3, 4, 6] {
        configure(&mut h, 24 + j, 1);
    }
    let before = h.clone();
    let ticked = differ(&mut h, REST);
    assert_eq!((ticked.interrupts, ticked.lines), (0, 0));
    assert_eq!(h, before);
}

#[test]
fn no_other_answer_makes_it_occur() {
    let mut h = watched(1, 0x393D);
    assert_eq!(write(&mut h, 1312, 0), 0);
    let accesses = [
        ((1338, 4), 0),
        ((1338, 4), 0),
        ((1338, 4), 0),
        ((2047, 4), -1),
        ((1284, 4), -2),
        ((1313, 4), -3),
        ((1285, 65536), -4),
        ((1, 15), 0),
    ];
    for ((register, value), answer) in accesses {
        assert_eq!(write(&mut h, register, value), answer);
    }
    assert_eq!(tick(&mut h, Access::Malformed, REST).answer, -5);
    // A read that drops the third 4's stage is no failure, and after it a
    // differing write is a first one.
    assert_eq!((open(&h), read(&mut h, 1338), open(&h)), (1, 4, 0));
    assert_eq!(write(&mut h, 1338, 5), 0);
    assert_eq!((h.locals[5].cause, h.intr_state), (0, 0));
}

#[test]
fn twelve_comes_last() {
    for (number, largest) in shadowed(1) {
        let mut h = watched(1, 0x393D);
        assert_eq!(write(&mut h, number, 1), 0);
        if largest < u32::MAX {
            assert_eq!(write(&mut h, number, largest + 1), -4, "{number}");
        }
        assert_eq!(write(&mut h, guard(number), 0), 0);
        assert_eq!(open(&h), 1);
        // Locked and differing: 3, and nothing occurs.
        assert_eq!(write(&mut h, number, 0), -3, "{number}");
        assert_eq!((h.locals[5].cause, h.intr_state), (0, 0), "{number}");
        assert_eq!(open(&h), 0);
    }
    // 7 comes before all; the stage is there to differ from.
    let mut h = watched(1, 0x393D);
    assert_eq!(write(&mut h, 1338, 8), 0);
    h.intr_state = 16;
    let before = h.clone();
    assert_eq!(write(&mut h, 1338, 9), -7);
    assert_eq!(h, before);
}

#[test]
fn a_dropped_stage_makes_it_occur_once() {
    let mut h = watched(1, 0x393D);
    h.classes[1].accum_thresh = 99;
    for round in 1..=5 {
        differ(&mut h, REST);
        // The next is a first write, and an equal one commits.
        configure(&mut h, 1338, round);
        idle(&mut h);
        assert_eq!(u32::from(h.classes[1].accum_cnt), round);
    }
}

// Its own registers

#[test]
fn its_own_enable_is_the_one_held() {
    let mut h = watched(1, 0x393D);
    // A staged 0 has not switched it off.
    assert_eq!(write(&mut h, EN, 0), 0);
    assert_eq!(write(&mut h, EN, 1), -12);
    assert_eq!((h.locals[5].en, h.locals[5].cause), (1, 1));

    // A staged 1 has not switched it on.
    let mut h = watched(1, 0x393D);
    configure(&mut h, EN, 0);
    assert_eq!(write(&mut h, EN, 1), 0);
    assert_eq!(write(&mut h, EN, 0), -12);
    assert_eq!((h.locals[5].en, h.locals[5].cause), (0, 0));
    assert_eq!(h.intr_state, 0);
}

#[test]
fn its_own_class_is_the_one_held() {
    let mut h = watched(1, 0x393D);
    for class in [1281, 1313, 1329] {
        configure(&mut h, class, 0x393D);
    }
    assert_eq!(write(&mut h, CLASS, 3), 0);
    assert_eq!(write(&mut h, CLASS, 2), -12);
    assert_eq!((h.intr_state, h.locals[5].class), (2, 1));
    // Committed, it counts from the next differing write.
    configure(&mut h, CLASS, 3);
    assert_eq!(h.intr_state, 2);
    differ(&mut h, REST);
    assert_eq!(h.intr_state, 10);
}

#[test]
fn its_class_has_the_control_that_is_held() {
    let mut h = watched(1, 0x393D);
    // Neither the staged nor the differing value switches the class off.
    assert_eq!(write(&mut h, 1297, 0), 0);
    let ticked = write_with(&mut h, 1297, 0x393C, REST);
    assert_eq!((ticked.answer, ticked.lines), (-12, 1));
    assert_eq!((h.classes[1].ctrl, h.classes[1].state), (0x393D, PHASE0));

    let mut h = watched(1, 0x393C);
    assert_eq!(write(&mut h, 1297, 0x393F), 0);
    assert_eq!(write(&mut h, 1297, 0x393D), -12);
    assert_eq!((h.classes[1].ctrl, h.classes[1].state), (0x393C, IDLE));
    event(&mut h);
    assert_eq!(h.locals[5].cause, 1);
}
