//! Refusal 7 and the ping timer: only the turn's ping may be open.

mod common;

use common::records::EDITIONS;
use common::timer::{alert_due, due, line_due, sample};
use common::{new, read, tick, write, ALERT0, COUNTS, REST, SILENT};
use reference::{batch, install, Access, Handler, Pairs, Ticked, Timer};

/// The answer of every call to a state that is refused.
fn refused(h: &Handler) {
    assert!(!h.valid());
    let mut kept = h.clone();
    let nothing = Ticked {
        answer: -7,
        interrupts: 0,
        lines: 0,
        acknowledge: Pairs::at_rest(),
        ping: Pairs::at_rest(),
        escalation: SILENT,
    };
    assert_eq!(tick(&mut kept, Access::Malformed, ALERT0), nothing);
    assert_eq!(tick(&mut kept, Access::None, REST), nothing);
    assert_eq!((read(&mut kept, 4), write(&mut kept, 6, 1)), (-7, -7));
    for edition in EDITIONS {
        // Before 8 and 9, and with no bytes too.
        for length in [0, 1, 24, 70, 75, 150] {
            let mut out = [9];
            let answer = batch(&mut kept, edition, &[0; 150][..length], &mut out);
            assert_eq!((answer, out), (-7, [9]));
        }
    }
    let installed = install(kept.clone(), 1);
    assert_eq!((installed.answer, installed.register), (-7, 0));
    assert_eq!((&installed.handler, &kept), (h, h));
}

/// Checks that the state takes a tick.
fn accepted(h: &Handler) {
    assert!(h.valid(), "{:?}", h.timer);
    assert_eq!(sample(&mut h.clone(), REST).answer, 0);
}

fn with_timer(n: u64, timer: Timer) -> Handler {
    let mut h = new(n);
    h.timer = timer;
    h
}

/// Whether the alert's ping may be open in this state of the timer.
fn alerts_turn(timer: &Timer, i: usize) -> bool {
    timer.enable == 1 && timer.number % 2 == 0 && usize::from(timer.alert) == i
}

#[test]
fn registers_over_their_bits() {
    for value in [2, 3, 128, 255] {
        let mut h = new(1);
        h.timer.enable = value;
        refused(&h);
        for enable in [0, 1] {
            (h.timer.regwen, h.timer.enable) = (value, enable);
            refused(&h);
        }
    }
}

#[test]
fn a_staged_timeout_over_its_bits() {
    for regwen in [0, 1] {
        let mut h = new(1);
        h.timer.regwen = regwen;
        for stage in [0, 1, 65535, 65536] {
            h.timer.stage = stage;
            accepted(&h);
        }
        for stage in [65537, 65538, 1 << 31, u32::MAX] {
            h.timer.stage = stage;
            refused(&h);
        }
    }
}

#[test]
fn everything_else_in_the_timer_is_free() {
    for number in 0..=255 {
        for (alert, count, timeout) in [(0, 0, 0), (77, 1, 9), (255, 65535, 65535)] {
            for enable in [0, 1] {
                for high in [0, 0xA0, 0xF0] {
                    accepted(&with_timer(
                        3,
                        Timer {
                            enable,
                            timeout,
                            number,
                            alert,
                            count,
                            lines: high,
                            ..Timer::new()
                        },
                    ));
                }
            }
        }
    }
}

#[test]
fn an_open_ping_of_a_line_must_be_the_turns() {
    for number in 0..=255u8 {
        for enable in [0, 1] {
            for lines in 0..16 {
                for high in [0, 0xF0] {
                    let mut timer = line_due(0);
                    (timer.number, timer.enable) = (number, enable);
                    timer.lines = high | lines;
                    let h = with_timer(1, timer);
                    // The bit of the turn's line, or none.
                    let turns = match (enable, number % 8) {
                        (1, 1) => 1,
                        (1, 3) => 2,
                        (1, 5) => 4,
                        (1, 7) => 8,
                        _ => 0,
                    };
                    let sound = lines == 0 || lines == turns;
                    assert_eq!(h.valid(), sound, "{number}, {lines}");
                }
            }
        }
    }
    // An alert's turn, another line, and off: all calls refuse.
    for (number, enable) in [(0, 1), (2, 1), (3, 1), (1, 0)] {
        let mut h = with_timer(1, line_due(0));
        (h.timer.number, h.timer.enable, h.timer.lines) = (number, enable, 1);
        refused(&h);
    }
    let mut h = with_timer(1, line_due(2));
    h.timer.lines = 4;
    accepted(&h);
}

#[test]
fn an_open_ping_of_an_alert_must_be_the_turns() {
    for n in COUNTS {
        for i in [0, n as usize / 2, n as usize - 1] {
            for number in [0, 1, 2, 3, 128, 254, 255] {
                for enable in [0, 1] {
                    for alert in [0, i as u8, n as u8 - 1, n as u8, 255] {
                        let mut h = with_timer(n, alert_due(alert));
                        (h.timer.number, h.timer.enable) = (number, enable);
                        h.receivers[i].open = true;
                        assert_eq!(h.valid(), alerts_turn(&h.timer, i));
                    }
                }
            }
        }
    }
    // A line's turn, another alert, and off: all calls refuse.
    for (number, alert, enable) in [(1, 1, 1), (0, 0, 1), (0, 2, 1), (0, 1, 0)] {
        let mut h = with_timer(3, alert_due(alert));
        (h.timer.number, h.timer.enable) = (number, enable);
        h.receivers[1].open = true;
        refused(&h);
    }
    // Not locked, not enabled and any age is sound.
    let mut h = with_timer(3, alert_due(1));
    (h.receivers[1].open, h.timer.count) = (true, 65535);
    accepted(&h);
}

#[test]
fn two_open_pings_are_refused() {
    let mut h = with_timer(3, alert_due(1));
    (h.receivers[1].open, h.receivers[2].open) = (true, true);
    refused(&h);
    let mut h = with_timer(3, alert_due(1));
    (h.receivers[1].open, h.timer.lines) = (true, 1);
    refused(&h);
    let mut h = with_timer(3, line_due(1));
    (h.receivers[0].open, h.timer.lines) = (true, 2);
    refused(&h);
}

#[test]
fn what_is_stored_at_n_and_above_is_not_looked_at() {
    for n in COUNTS {
        for timer in [Timer::new(), alert_due(0), alert_due(n as u8), line_due(3)] {
            let mut h = with_timer(n, timer);
            for receiver in &mut h.receivers[n as usize..] {
                receiver.open = true;
            }
            accepted(&h);
            h.receivers[n as usize - 1].open = true;
            let last = n == 1 && alerts_turn(&timer, 0);
            assert_eq!(h.valid(), last, "N {n}");
        }
    }
}

#[test]
fn seven_comes_before_thirteen() {
    let mut h = new(57);
    h.timer.lines = 1;
    refused(&h);
    h.timer.lines = 0;
    assert_eq!(install(h, 1).answer, -13);
}

#[test]
fn a_ping_that_is_due_is_no_open_one() {
    let mut h = new(2);
    due(&mut h, 1);
    accepted(&h);
    sample(&mut h, REST);
    assert!(h.receivers[1].open);
    accepted(&h);
}
