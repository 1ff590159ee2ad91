//! Registers, samples, classes and refusal 7, each as a run with asserted
//! values and today's register numbers.

mod common;

use common::records::EDITIONS;
use common::{
    configure, event, idle, new, pause, raised, read, ready, sampled, tick, with, write, ALERT0,
    COUNTS, REST, SILENT,
};
use reference::class::{IDLE, PHASE0, TERMINAL, TIMEOUT};
use reference::handler::MAX_ALERTS;
use reference::trace::word;
use reference::{batch, Access, Handler, Outcome, Pairs, Place, Receiver, Source, Ticked};

// Registers

#[test]
fn largest_values_and_one_bit_more() {
    // Number, largest value, what a read gives after writing it twice.
    let rows: [(u16, u32, i64); 17] = [
        (0, 15, 0),
        (1, 15, 15),
        (2, 15, -2),
        (4, 1, 1),
        (5, 0xFFFF, 0xFFFF),
        (6, 1, 1),
        (18, 1, 1),
        (26, 1, 1),
        (34, 3, 3),
        (42, 1, 0),
        (256, 1, 1),
        (512, 1, 1),
        (768, 3, 3),
        (1024, 1, 0),
        (1281, 0x3FFF, 0x3FFF),
        (1285, 0xFFFF, 0xFFFF),
        (1283, 1, -2),
    ];
    for (number, largest, after) in rows {
        let mut h = new(1);
        assert_eq!(write(&mut h, number, largest + 1), -4, "{number}");
        assert_eq!(h, new(1));
        assert_eq!(write(&mut h, number, u32::MAX), -4, "{number}");
        configure(&mut h, number, largest);
        assert_eq!(read(&mut h, number), after, "{number}");
    }
    for number in 1286..=1290 {
        let mut h = new(1);
        configure(&mut h, number, u32::MAX);
        assert_eq!(read(&mut h, number), 4_294_967_295);
    }
}

#[test]
fn locks_and_their_order() {
    let mut h = new(1);
    for regwen in [4, 18, 256, 1280, 1282] {
        assert_eq!(write(&mut h, regwen, 1), 0);
        assert_eq!(write(&mut h, regwen, 0), 0);
        assert_eq!(write(&mut h, regwen, 2), -4);
        assert_eq!(write(&mut h, regwen, 1), -3);
        assert_eq!(write(&mut h, regwen, 0), 0);
    }
    for number in [
        5, 6, 26, 34, 512, 768, 1281, 1283, 1285, 1286, 1287, 1288, 1289, 1290,
    ] {
        assert_eq!(write(&mut h, number, 0), -3, "{number}");
        assert_eq!(write(&mut h, number, 1), -3, "{number}");
    }
    assert_eq!(write(&mut h, 1285, 65536), -4);
    for number in [42, 1024, 19, 27, 1296, 1297, 1299, 0, 1, 2] {
        configure(&mut h, number, 1);
    }
}

#[test]
fn a_cause_clears_by_a_one_but_an_event_sets_it_again() {
    let mut h = ready(1, 0x393C);
    event(&mut h);
    assert_eq!(write(&mut h, 1024, 0), 0);
    // The alert dropped with the write; these are the two ticks of pause.
    for _ in 0..2 {
        assert_eq!(read(&mut h, 1024), 1);
    }
    let clear = Access::Write {
        register: 1024,
        value: 1,
    };
    assert_eq!(tick(&mut h, clear, ALERT0).answer, 0);
    assert_eq!(read(&mut h, 1024), 1);
    assert_eq!(tick(&mut h, clear, REST).answer, 0);
    assert_eq!(read(&mut h, 1024), 0);
    // The class is not enabled, so nothing but the cause came of it.
    assert_eq!((h.intr_state, h.classes[0].accum_cnt), (0, 0));
}

// Samples and classes

#[test]
fn an_alert_must_drop_and_pause() {
    let mut h = ready(1, 0x393D);
    h.classes[0].accum_thresh = 9;
    event(&mut h);
    event(&mut h);
    tick(&mut h, Access::None, sampled([0; 4], [0; 4]));
    event(&mut h);
    assert_eq!(h.classes[0].accum_cnt, 1);
    // Dropped, but a rise of one tick in the pause is lost.
    idle(&mut h);
    event(&mut h);
    idle(&mut h);
    idle(&mut h);
    assert_eq!(h.classes[0].accum_cnt, 1);
    event(&mut h);
    assert_eq!(h.classes[0].accum_cnt, 2);
    pause(&mut h);
    event(&mut h);
    assert_eq!(h.classes[0].accum_cnt, 3);
}

#[test]
fn a_disabled_alert_is_taken_without_a_cause() {
    let mut h = new(1);
    event(&mut h);
    assert_eq!(h.receivers[0].place, Place::Acknowledged);
    // Enabled in the second of these ticks, but the event is over.
    let enable = Access::Write {
        register: 512,
        value: 1,
    };
    tick(&mut h, enable, ALERT0);
    tick(&mut h, enable, ALERT0);
    assert_eq!((h.alerts[0].en, h.alerts[0].cause), (1, 0));
}

#[test]
fn entries_and_samples_at_n_and_above_count_for_nothing() {
    for n in COUNTS {
        let mut h = ready(n, 0x393D);
        configure(&mut h, 26, 1);
        for i in n as usize..MAX_ALERTS {
            h.alerts[i] = Source {
                regwen: 2,
                en: 1,
                class: 200,
                cause: 9,
            };
            h.receivers[i] = Receiver {
                place: [Place::Acknowledged, Place::FirstPause][i % 2],
                ping: true,
                open: i % 3 == 0,
            };
            h.stages.alerts.en[i] = 200;
            h.stages.alerts.class[i] = 100;
        }
        assert!(h.valid());
        let before = h.clone();
        for pair in [(1, 0), (0, 1), (0, 0), (1, 1)] {
            let sample = (n as usize..256).fold(REST, |sample, i| with(sample, i, pair));
            let ticked = tick(&mut h, Access::None, sample);
            let rest = Pairs::at_rest();
            assert_eq!(ticked.answer, 0);
            assert_eq!((ticked.acknowledge, ticked.ping), (rest, rest));
            assert_eq!(h, before, "N {n}, {pair:?}");
        }
    }
}

#[test]
fn a_timeout_goes_back_when_not_due_and_survives_a_clear() {
    let mut h = ready(1, 0x393D);
    configure(&mut h, 1286, 4);
    assert_eq!(write(&mut h, 2, 1), 0);
    assert_eq!((h.classes[0].state, h.classes[0].esc_cnt), (TIMEOUT, 1));
    assert_eq!(write(&mut h, 1283, 1), 0);
    assert_eq!((h.classes[0].state, h.classes[0].esc_cnt), (TIMEOUT, 2));
    assert_eq!(write(&mut h, 0, 1), 0);
    assert_eq!((h.classes[0].state, h.classes[0].esc_cnt), (IDLE, 0));
}

#[test]
fn a_phase_does_not_read_en() {
    let mut h = ready(1, 0x393D);
    h.classes[0].phase_cyc = [3; 4];
    assert_eq!(write(&mut h, 1281, 0x393C), 0);
    event(&mut h);
    let off = Access::Write {
        register: 1281,
        value: 0x393C,
    };
    assert_eq!(
        tick(&mut h, off, REST).outcome(),
        Outcome {
            answer: 0,
            interrupts: 0,
            lines: 1
        }
    );
    assert_eq!(h.classes[0].ctrl, 0x393C);
    assert_eq!((h.classes[0].state, h.classes[0].esc_cnt), (PHASE0, 2));
}

#[test]
fn two_classes_share_the_lines() {
    let mut h = ready(2, 0x393D);
    configure(&mut h, 769, 3);
    // Class 3: line 3 only, in Phase 0.
    configure(&mut h, 1329, 0x0021);
    assert_eq!(write(&mut h, 1, 8), 0);
    let ticked = tick(&mut h, Access::None, raised(&[0, 1])).outcome();
    assert_eq!(
        ticked,
        Outcome {
            answer: 0,
            interrupts: 8,
            lines: 9
        }
    );
    // Class 3's interrupt and line 0 and 3, the first of each highest.
    assert_eq!(word(&ticked), 0x1900_0000_0000_0000);
}

// Refusal 7

/// Each breaks the rule at one place in a handler of three alerts.
const DAMAGES: [fn(&mut Handler); 33] = [
    |h| h.n = 249,
    |h| h.intr_state = 16,
    |h| h.intr_enable = 16,
    |h| h.alerts[2].regwen = 2,
    |h| h.alerts[2].en = 2,
    |h| h.alerts[2].class = 4,
    |h| h.alerts[2].cause = 2,
    |h| h.locals[6].regwen = 2,
    |h| h.locals[6].en = 2,
    |h| h.locals[6].class = 4,
    |h| h.locals[6].cause = 2,
    |h| h.classes[3].regwen = 2,
    |h| h.classes[3].clr_regwen = 2,
    |h| h.classes[3].ctrl = 0x4000,
    |h| h.classes[3].state = 2,
    |h| h.classes[3].state = 8,
    |h| h.classes[3].esc_cnt = 1,
    |h| h.classes[3].state = TIMEOUT,
    |h| h.classes[3].state = PHASE0,
    // Staged values of one bit more than the field: a stage is one higher.
    |h| h.stages.alerts.en[2] = 3,
    |h| h.stages.alerts.class[2] = 5,
    |h| h.stages.locals.en[6] = 3,
    |h| h.stages.locals.class[6] = 5,
    |h| h.stages.classes[3].ctrl = 0x4001,
    |h| h.stages.classes[3].thresh = 0x1_0001,
    |h| h.stages.classes[3].timeout = (1 << 32) + 1,
    |h| h.stages.classes[3].lengths[0] = (1 << 32) + 1,
    |h| h.stages.classes[3].lengths[3] = (1 << 32) + 1,
    |h| h.stages.classes[0].lengths[3] = u64::MAX,
    |h| h.stages.alerts.en[0] = 255,
    |h| h.timer.regwen = 2,
    |h| h.timer.enable = 2,
    |h| h.timer.stage = 0x1_0001,
];

#[test]
fn damaged_states_are_refused() {
    for damage in DAMAGES {
        let mut h = new(3);
        h.intr_state = 15;
        h.intr_enable = 15;
        damage(&mut h);
        let before = h.clone();
        assert!(!h.valid());
        let refused = Ticked {
            answer: -7,
            interrupts: 0,
            lines: 0,
            acknowledge: Pairs::at_rest(),
            ping: Pairs::at_rest(),
            escalation: SILENT,
        };
        assert_eq!(tick(&mut h, Access::Malformed, ALERT0), refused);
        let mut out = [7];
        for edition in EDITIONS {
            assert_eq!(batch(&mut h, edition, &[0; 71], &mut out), -7);
            assert_eq!(batch(&mut h, edition, &[], &mut []), -7);
        }
        assert_eq!((h, out), (before, [7]));
    }
}

#[test]
fn terminal_holds_no_count() {
    let mut h = new(3);
    h.classes[0].state = TERMINAL;
    assert!(h.valid());
    h.classes[0].esc_cnt = 1;
    assert!(!h.valid());
}

#[test]
fn the_last_alert_is_looked_at_and_no_entry_after_it() {
    for n in COUNTS {
        let mut h = new(n);
        h.alerts[n as usize - 1].class = 4;
        assert!(!h.valid(), "N {n}");
        let mut staged = new(n);
        staged.stages.alerts.class[n as usize - 1] = 5;
        assert!(!staged.valid(), "N {n}");
        if n < 248 {
            let mut h = new(n);
            h.alerts[n as usize].class = 4;
            h.stages.alerts.en[n as usize] = 3;
            h.stages.alerts.class[n as usize] = 5;
            assert!(h.valid(), "N {n}");
        }
    }
    for n in [249, 256, 1 << 32, u64::MAX] {
        let mut h = new(248);
        h.n = n;
        assert_eq!(tick(&mut h, Access::None, REST).answer, -7);
    }
}
