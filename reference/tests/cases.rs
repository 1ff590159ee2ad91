//! The paper's "Ticks to reproduce" and its "Slips that look right", each as a
//! run with asserted values. They keep the numbering of document 01 and go
//! through records: of the first edition, and with their numbers carried by
//! hand through records of the second.

mod common;

use common::records::{Bench, EDITIONS};
use common::{raised, sampled, ALERT0, REST};
use reference::class::{IDLE, PHASE0, TERMINAL, TIMEOUT};
use reference::trace::word;
use reference::{Access, Outcome, Receiver};

/// A clear of class 0.
const CLEAR: Access = Access::Write {
    register: 323,
    value: 1,
};

// Ticks to reproduce

#[test]
fn p1_ctrl_at_reset() {
    for edition in EDITIONS {
        assert_eq!(Bench::new(edition, 1).read(321), 0x393C);
    }
}

#[test]
fn p2_threshold_field() {
    for edition in EDITIONS {
        let mut b = Bench::new(edition, 1);
        // The first write is staged, the second commits.
        assert_eq!(b.write(325, 65535), 0);
        assert_eq!(b.h.classes[0].accum_thresh, 0);
        assert_eq!(b.write(325, 65535), 0);
        assert_eq!(b.h.classes[0].accum_thresh, 65535);
        // One more than the field holds changes neither register nor stage.
        let before = b.h.clone();
        assert_eq!(b.write(325, 65536), -4);
        assert_eq!(b.h, before);
        assert_eq!(b.read(325), 65535);
    }
}

#[test]
fn p3_p4_class_regwen() {
    for edition in EDITIONS {
        let mut b = Bench::new(edition, 1);
        assert_eq!(b.write(320, 0), 0);
        assert_eq!(b.write(321, 0), -3);
        assert_eq!(b.read(321), 0x393C);
        assert_eq!(b.write(320, 1), -3);
        assert_eq!(b.write(320, 0), 0);
        assert_eq!(b.read(320), 0);
    }
}

#[test]
fn p5_third_event_exceeds_threshold_two() {
    for edition in EDITIONS {
        let mut b = Bench::ready(edition, 1, 0x393D);
        b.configure(325, 2);
        for count in 1..=2 {
            assert_eq!(b.event().lines, 0);
            assert_eq!(b.stands(), (IDLE, 0));
            assert_eq!(b.h.classes[0].accum_cnt, count);
            b.pause();
        }
        assert_eq!(b.event().lines, 1);
        assert_eq!(b.stands(), (PHASE0, 1));
        assert_eq!(b.read(324), 3);
    }
}

#[test]
fn p6_full_accumulator() {
    for edition in EDITIONS {
        let mut b = Bench::ready(edition, 1, 0x393D);
        b.configure(325, 65535);
        b.h.classes[0].accum_cnt = 65535;
        b.event();
        assert_eq!(b.h.classes[0].state, PHASE0);
        assert_eq!(b.read(324), 65535);
    }
}

#[test]
fn p7_phase_starts() {
    for edition in EDITIONS {
        let mut b = Bench::ready(edition, 1, 0x393D);
        for (p, length) in [0, 10, 10, 5].into_iter().enumerate() {
            b.configure(327 + p as u16, length);
        }
        for now in 100..140u32 {
            let ticked = if now == 100 { b.event() } else { b.idle() };
            let (state, start, lines) = match now {
                100 => (4, 100, 1),
                101..=110 => (5, 101, 2),
                111..=120 => (6, 111, 4),
                121..=125 => (7, 121, 8),
                _ => (TERMINAL, now + 1, 0),
            };
            assert_eq!(b.stands(), (state, now + 1 - start), "tick {now}");
            assert_eq!(ticked.lines, lines, "tick {now}");
        }
    }
}

#[test]
fn p7_longest_last_phase() {
    for edition in EDITIONS {
        let mut b = Bench::ready(edition, 1, 0x393D);
        b.h.classes[0].phase_cyc[3] = u32::MAX;
        b.h.classes[0].state = 7;
        // Phase 3 started in tick 121; leap to the tick 4294967414.
        b.h.classes[0].esc_cnt = (4_294_967_414u64 - 121 + 1) as u32;
        b.idle();
        assert_eq!(b.stands(), (7, u32::MAX));
        b.idle();
        assert_eq!(b.stands(), (TERMINAL, 0));
    }
}

#[test]
fn p8_timeout_one_and_zero() {
    for edition in EDITIONS {
        let mut b = Bench::ready(edition, 1, 0x393D);
        b.configure(325, 9);
        b.configure(326, 1);
        b.event();
        assert_eq!(b.stands(), (TIMEOUT, 1));
        assert_eq!(b.idle().lines, 1);
        assert_eq!(b.stands(), (PHASE0, 1));

        let mut b = Bench::ready(edition, 1, 0x393D);
        b.configure(325, 9);
        b.event();
        for _ in 0..5 {
            b.idle();
            assert_eq!((b.stands(), b.h.intr_state), ((IDLE, 0), 1));
        }
    }
}

#[test]
fn p9_clear_with_event_at_threshold() {
    for edition in EDITIONS {
        let mut b = Bench::ready(edition, 1, 0x393D);
        b.h.classes[0].accum_thresh = 2;
        b.h.classes[0].accum_cnt = 2;
        assert_eq!(b.tick(CLEAR, ALERT0).answer, 0);
        assert_eq!(b.h.classes[0].accum_cnt, 0);
        assert_eq!(b.stands(), (IDLE, 0));
        assert_eq!(b.h.intr_state, 1);
    }
}

#[test]
fn p10_clear_after_lock_start() {
    for edition in EDITIONS {
        let mut b = Bench::ready(edition, 1, 0x393F);
        b.event();
        assert_eq!(b.h.classes[0].clr_regwen, 0);
        assert_eq!(b.write(323, 1), -3);
        assert_eq!(b.write(323, 0), -3);
    }
}

#[test]
fn p11_equal_wires() {
    for edition in EDITIONS {
        let mut b = Bench::new(edition, 1);
        for (register, value) in [(128, 1), (26, 1), (34, 1), (337, 0x393D)] {
            b.configure(register, value);
        }
        b.tick(Access::None, sampled([u64::MAX; 4], [u64::MAX; 4]));
        assert_eq!(b.h.receivers[0], Receiver::new());
        assert_eq!(b.read(42), 1);
        assert_eq!(b.read(256), 0);
        assert_eq!(b.h.intr_state, 2);
        assert_eq!(b.h.classes[1].accum_cnt, 1);
    }
}

#[test]
fn p12_interrupt_clear_with_event() {
    for edition in EDITIONS {
        let mut b = Bench::ready(edition, 1, 0x393D);
        b.event();
        b.pause();
        let clear = Access::Write {
            register: 0,
            value: 1,
        };
        assert_eq!(b.tick(clear, ALERT0).answer, 0);
        assert_eq!(b.read(0), 1);
        assert_eq!(b.tick(clear, REST).answer, 0);
        assert_eq!(b.read(0), 0);
    }
}

#[test]
fn refused_accesses() {
    for edition in EDITIONS {
        let mut b = Bench::new(edition, 1);
        let before = b.h.clone();
        assert_eq!(b.read(333), -1);
        assert_eq!(b.read(323), -2);
        assert_eq!(b.write(324, 0), -2);
        assert_eq!(b.write(1, 16), -4);
        assert_eq!(b.h, before);
    }
}

// Slips that look right

#[test]
fn two_alerts_are_one_event() {
    for edition in EDITIONS {
        let mut b = Bench::ready(edition, 2, 0x393D);
        b.tick(Access::None, raised(&[0, 1]));
        assert_eq!(b.read(324), 1);
        assert_eq!((b.read(256), b.read(257)), (1, 1));
    }
}

#[test]
fn zero_phases_take_a_tick_each() {
    for edition in EDITIONS {
        let mut b = Bench::ready(edition, 1, 0x393D);
        let mut lines = vec![b.event().lines];
        for _ in 0..4 {
            lines.push(b.idle().lines);
        }
        assert_eq!(lines, [1, 2, 4, 8, 0]);
        assert_eq!(b.read(332), i64::from(TERMINAL));
    }
}

#[test]
fn threshold_is_compared_before_counting() {
    for edition in EDITIONS {
        let mut b = Bench::ready(edition, 1, 0x393D);
        b.configure(325, 1);
        b.event();
        assert_eq!((b.stands(), b.h.classes[0].accum_cnt), ((IDLE, 0), 1));
        b.pause();
        b.event();
        assert_eq!((b.stands(), b.h.classes[0].accum_cnt), ((PHASE0, 1), 2));
    }
}

#[test]
fn clear_does_not_undo_a_locked_start() {
    for edition in EDITIONS {
        let mut b = Bench::ready(edition, 1, 0x393F);
        b.h.classes[0].phase_cyc = [5; 4];
        b.event();
        let ticked = b.tick(CLEAR, REST);
        assert_eq!((ticked.answer, ticked.lines), (-3, 1));
        assert_eq!((b.stands(), b.h.classes[0].accum_cnt), ((PHASE0, 2), 1));
        // Without LOCK the same clear is accepted.
        let mut b = Bench::ready(edition, 1, 0x393D);
        b.h.classes[0].phase_cyc = [5; 4];
        b.event();
        let ticked = b.tick(CLEAR, REST);
        assert_eq!((ticked.answer, ticked.lines), (0, 0));
        assert_eq!((b.stands(), b.h.classes[0].accum_cnt), ((IDLE, 0), 0));
    }
}

#[test]
fn samples_count_when_the_access_is_refused() {
    let read = |register| Access::Read { register };
    let write = |register, value| Access::Write { register, value };
    let refused = [
        (read(333), -1),
        (read(323), -2),
        (write(321, 0), -3),
        (write(1, 16), -4),
        (Access::Malformed, -5),
        (write(341, 6), -12),
    ];
    for edition in EDITIONS {
        for (access, answer) in refused {
            let mut b = Bench::ready(edition, 1, 0x393D);
            assert_eq!(b.write(320, 0), 0);
            assert_eq!(b.write(1, 1), 0);
            assert_eq!(b.write(341, 7), 0);
            let expected = Outcome {
                answer,
                interrupts: 1,
                lines: 1,
            };
            assert_eq!(b.tick(access, ALERT0), expected);
            assert_eq!(b.read(256), 1);
        }
    }
}

#[test]
fn a_refusal_is_no_value() {
    let answered = |answer| {
        word(&Outcome {
            answer,
            interrupts: 0,
            lines: 0,
        })
    };
    assert_eq!(answered(-2), 0x0020_0000_0000_0000);
    assert_eq!(answered(2), 2);
    assert_eq!(answered(0xFFFF_FFFE), 0xFFFF_FFFE);
}
