//! Open pings of the timer: answers in time, early and by others, and what a
//! failure does.

mod common;

use common::pinged::{answer, ended, failed, failure, is_open, pinged, still_open, TURNS};
use common::timer::{alert_due, answering, drawing, entropy, sample};
use common::{raised, tick, with, write, ALERT0, REST};
use reference::class::PHASE0;
use reference::timer::Turn;
use reference::{Access, Place, Stand, Timer};

// Answers

#[test]
fn a_rise_before_the_ping_is_an_event_and_no_answer() {
    let mut h = pinged(Turn::Alert(0), 0);
    h.timer.count = 1;
    sample(&mut h, ALERT0);
    assert_eq!(h.alerts[0].cause, 1);
    // The wire is still high when the ping opens, but it was taken.
    for age in 0..3 {
        sample(&mut h, ALERT0);
        still_open(&h, Turn::Alert(0), age);
    }
}

#[test]
fn an_answer_bit_before_the_ping_counts_for_nothing() {
    for e in 0..4 {
        let turn = Turn::Line(e);
        let mut h = pinged(turn, 0);
        h.timer.count = 2;
        for count in [1, 0] {
            sample(&mut h, answering(REST, 15));
            assert_eq!((h.timer.count, h.timer.turn()), (count, turn));
            assert!(!is_open(&h, turn));
        }
        sample(&mut h, REST);
        still_open(&h, turn, 0);
        sample(&mut h, answering(REST, 15));
        ended(&h, turn, 0);
    }
}

#[test]
fn answers_of_others_count_for_nothing() {
    for turn in TURNS {
        let mut h = pinged(turn, 4);
        for age in 0..4 {
            let others = match turn {
                // The lines, and the other alert, whose rise is an event.
                Turn::Alert(i) => answering(raised(&[1 - i]), 0xFF),
                Turn::Line(e) => answering(REST, !(1 << e)),
            };
            sample(&mut h, others);
            still_open(&h, turn, age);
        }
        let others = match turn {
            Turn::Alert(_) => answering(REST, 0xFF),
            Turn::Line(e) => answering(raised(&[0, 1]), !(1 << e)),
        };
        sample(&mut h, others);
        ended(&h, turn, 0);
        assert_eq!(failed(&h), failure(turn));
        let events = (h.alerts[0].cause, h.alerts[1].cause);
        match turn {
            Turn::Alert(0) => assert_eq!(events, (0, 1)),
            Turn::Alert(_) => assert_eq!(events, (1, 0)),
            Turn::Line(_) => assert_eq!(events, (1, 1)),
        }
    }
}

#[test]
fn equal_wires_answer_nothing_and_the_ping_fails_as_well() {
    for pair in [(0, 0), (1, 1)] {
        let mut h = pinged(Turn::Alert(0), 1);
        h.locals[2].en = 1;
        for _ in 0..2 {
            sample(&mut h, with(REST, 0, pair));
        }
        ended(&h, Turn::Alert(0), 0);
        assert_eq!((failed(&h), h.locals[2].cause), ((1, 0), 1));
    }
}

#[test]
fn an_answer_in_the_tick_of_opening_ends_the_turn_there() {
    for turn in TURNS {
        for timeout in [0, 1] {
            let mut h = pinged(turn, timeout);
            let before = h.timer.number;
            sample(&mut h, drawing(answer(turn), entropy(6, 1)));
            ended(&h, turn, 6);
            assert_eq!(h.timer.number, before + 1);
            if let Turn::Alert(i) = turn {
                let receiver = h.receivers[i];
                assert_eq!((receiver.place, receiver.ping), (Place::Acknowledged, true));
                assert_eq!(h.alerts[i].cause, 0);
            }
        }
    }
}

#[test]
fn a_rise_after_the_failure_is_an_event() {
    let mut h = pinged(Turn::Alert(0), 1);
    sample(&mut h, REST);
    sample(&mut h, REST);
    assert_eq!((failed(&h), h.alerts[0].cause), ((1, 0), 0));
    sample(&mut h, ALERT0);
    assert_eq!((failed(&h), h.alerts[0].cause), ((1, 0), 1));
}

#[test]
fn the_level_stays_after_a_failure_and_the_next_ping_turns_it() {
    let mut h = pinged(Turn::Alert(0), 1);
    for ping in [true, false, true] {
        h.timer = alert_due(0);
        h.timer.timeout = 1;
        for _ in 0..5 {
            sample(&mut h, drawing(REST, 50));
            assert_eq!(h.receivers[0].ping, ping);
        }
        assert_eq!((h.timer.number, h.receivers[0].open), (1, false));
    }
}

#[test]
fn bits_4_to_7_of_the_lines_are_kept() {
    for e in 0..4 {
        for high in [0x10, 0x50, 0xF0] {
            for answers in [0, 1 << e] {
                let mut h = pinged(Turn::Line(e), 1);
                h.timer.lines = high;
                sample(&mut h, REST);
                assert_eq!(h.timer.lines, high | 1 << e);
                sample(&mut h, answering(REST, answers));
                assert_eq!(h.timer.lines, high);
            }
        }
    }
}

// What a failure does

#[test]
fn a_disabled_local_alert_does_not_occur_but_the_ping_closes() {
    for turn in TURNS {
        let mut h = pinged(turn, 1);
        (h.locals[0].en, h.locals[1].en) = (0, 0);
        h.classes[0].ctrl = 0x393D;
        h.classes[1].ctrl = 0x393D;
        let mut expected = h.clone();
        sample(&mut h, REST);
        sample(&mut h, drawing(REST, 4));
        ended(&h, turn, 4);
        expected.timer = Timer {
            number: expected.timer.number + 1,
            alert: h.timer.alert,
            count: 4,
            ..expected.timer
        };
        match turn {
            Turn::Alert(i) => expected.receivers[i].ping = true,
            // A sound receiver is still to send three of its answers.
            Turn::Line(e) => expected.senders[e].receiver.stand = Stand::Second,
        }
        assert_eq!(h, expected);
    }
}

#[test]
fn a_failure_is_an_event_of_the_local_alerts_class() {
    for (turn, k) in [(Turn::Alert(1), 0), (Turn::Line(1), 1)] {
        let mut h = pinged(turn, 3);
        h.classes[k].ctrl = 0x393D;
        h.intr_enable = 15;
        for _ in 0..3 {
            assert_eq!(sample(&mut h, REST).interrupts, 0);
        }
        let ticked = sample(&mut h, REST);
        assert_eq!((ticked.interrupts, ticked.lines), (1 << k, 1));
        let class = h.classes[k];
        assert_eq!((class.state, class.accum_cnt), (PHASE0, 1));
        assert_eq!(failed(&h), failure(turn));
        // The causes clear as any other.
        let register = 40 + k as u16;
        assert_eq!(write(&mut h, register, 1), 0);
        assert_eq!(failed(&h), (0, 0));
    }
}

#[test]
fn with_other_events_in_the_tick_it_is_one() {
    let mut h = pinged(Turn::Alert(0), 1);
    h.classes[0] = {
        let mut class = h.classes[0];
        (class.ctrl, class.accum_thresh) = (0x393D, 9);
        class
    };
    (h.locals[2].en, h.locals[5].en) = (1, 1);
    sample(&mut h, REST);
    // Alert 1 rises, alert 0 has equal wires, and two writes differ.
    h.stages.classes[3].thresh = 8;
    let access = Access::Write {
        register: 1333,
        value: 9,
    };
    let ticked = tick(&mut h, access, with(raised(&[1]), 0, (1, 1)));
    assert_eq!((ticked.answer, h.classes[0].accum_cnt), (-12, 1));
    let causes = h.locals.map(|local| local.cause);
    assert_eq!(
        (causes, h.alerts[1].cause, h.alerts[0].cause),
        ([1, 0, 1, 0, 0, 1, 0], 1, 0)
    );
}

#[test]
fn the_enable_and_class_of_the_failing_tick_are_those_after_its_access() {
    // The second write of EN comes in the failing tick.
    for (value, cause) in [(0, 0), (1, 1)] {
        let mut h = pinged(Turn::Line(0), 1);
        h.locals[1].en = 1 - value as u8;
        let access = Access::Write {
            register: 25,
            value,
        };
        for _ in 0..2 {
            assert_eq!(tick(&mut h, access, REST).answer, 0);
        }
        assert_eq!(failed(&h), (0, cause));
    }
}
