//! Open pings of the timer that fail: timeouts at both edges, and timeouts that
//! change meanwhile.

mod common;

use common::pinged::{answer, ended, failed, failure, pinged, still_open, TURNS};
use common::timer::{alert_due, drawing, entropy, sample};
use common::{configure, new, tick, write, REST};
use reference::timer::Turn;
use reference::{Access, Handler, Timer};

// Timeouts

#[test]
fn unanswered_it_fails_in_the_tick_of_the_timeout() {
    for turn in TURNS {
        for timeout in [1, 2, 3, 17, 255, 256] {
            let mut h = pinged(turn, timeout);
            for age in 0..timeout {
                sample(&mut h, drawing(REST, 1));
                still_open(&h, turn, age);
            }
            sample(&mut h, drawing(REST, entropy(33, 1)));
            ended(&h, turn, 33);
            assert_eq!(failed(&h), failure(turn), "{turn:?}, {timeout}");
        }
    }
}

#[test]
fn the_longest_timeouts() {
    for turn in [Turn::Alert(1), Turn::Line(2)] {
        for timeout in [65534, 65535] {
            let mut h = pinged(turn, timeout);
            for age in 0..timeout {
                sample(&mut h, REST);
                still_open(&h, turn, age);
            }
            let mut late = h.clone();
            sample(&mut h, REST);
            ended(&h, turn, 0);
            assert_eq!(failed(&h), failure(turn));
            sample(&mut late, answer(turn));
            ended(&late, turn, 0);
            assert_eq!(failed(&late), (0, 0));
        }
    }
}

#[test]
fn answered_up_to_the_tick_of_the_timeout_it_does_not_fail() {
    for turn in TURNS {
        for timeout in [0, 1, 2, 3, 17] {
            for age in 0..=timeout.max(1) {
                let mut h = pinged(turn, timeout);
                for age in 0..age {
                    sample(&mut h, REST);
                    still_open(&h, turn, age);
                }
                sample(&mut h, drawing(answer(turn), entropy(21, 9)));
                ended(&h, turn, 21);
                assert_eq!(failed(&h), (0, 0), "{turn:?}, {timeout}, {age}");
                assert_eq!((h.alerts[0].cause, h.alerts[1].cause), (0, 0));
            }
        }
    }
}

#[test]
fn at_timeout_0_it_waits_for_its_answer() {
    for turn in [Turn::Alert(0), Turn::Line(3)] {
        let mut h = pinged(turn, 0);
        for age in 0..70_000u32 {
            sample(&mut h, REST);
            still_open(&h, turn, age.min(65535) as u16);
        }
        sample(&mut h, drawing(answer(turn), 5));
        ended(&h, turn, 5);
        assert_eq!(failed(&h), (0, 0));
    }
}

// Changed while open

/// Runs the ping to this age, with the first write of a new timeout last.
fn staged(turn: Turn, timeout: u16, age: u16, new: u32) -> Handler {
    let mut h = pinged(turn, timeout);
    for now in 0..age {
        sample(&mut h, REST);
        still_open(&h, turn, now);
    }
    assert_eq!(write(&mut h, 5, new), 0);
    // A staged timeout acts on nothing.
    still_open(&h, turn, age);
    h
}

#[test]
fn a_lowered_timeout_fails_in_its_tick() {
    for turn in TURNS {
        // In the next tick the ping is 6 ticks old.
        for (new, fails) in [
            (1, true),
            (5, true),
            (6, true),
            (7, false),
            (8, false),
            (0, false),
        ] {
            for old in [0, 9, 65535] {
                let mut h = staged(turn, old, 5, new);
                assert_eq!(write(&mut h, 5, new), 0);
                if fails {
                    ended(&h, turn, 0);
                    assert_eq!(failed(&h), failure(turn), "{old} to {new}");
                } else {
                    still_open(&h, turn, 6);
                }
            }
        }
    }
}

#[test]
fn an_answer_in_the_tick_that_lowers_the_timeout_is_in_time() {
    for turn in TURNS {
        let mut h = staged(turn, 9, 5, 1);
        let access = Access::Write {
            register: 5,
            value: 1,
        };
        tick(&mut h, access, answer(turn));
        ended(&h, turn, 0);
        assert_eq!((failed(&h), h.timer.timeout), ((0, 0), 1));
    }
}

#[test]
fn a_raised_timeout_gives_more_time() {
    for turn in TURNS {
        // It would fail in the tick of the second write.
        let mut h = staged(turn, 6, 5, 8);
        assert_eq!(write(&mut h, 5, 8), 0);
        still_open(&h, turn, 6);
        sample(&mut h, REST);
        still_open(&h, turn, 7);
        sample(&mut h, REST);
        ended(&h, turn, 0);
        assert_eq!(failed(&h), failure(turn));
        // 0 takes the end away.
        let mut h = staged(turn, 6, 5, 0);
        assert_eq!(write(&mut h, 5, 0), 0);
        for age in 7..50 {
            sample(&mut h, REST);
            still_open(&h, turn, age);
        }
    }
}

#[test]
fn a_given_age_at_its_end_fails_at_any_timeout() {
    for turn in TURNS {
        for timeout in [1, 2, 65534, 65535] {
            let mut h = pinged(turn, 0);
            sample(&mut h, REST);
            h.timer.count = 65535;
            sample(&mut h, REST);
            still_open(&h, turn, 65535);
            h.timer.timeout = timeout;
            sample(&mut h, REST);
            ended(&h, turn, 0);
            assert_eq!(failed(&h), failure(turn));
        }
    }
}

#[test]
fn a_timeout_does_not_touch_a_ping_that_is_not_open() {
    let mut h = new(1);
    (h.locals[0].en, h.locals[1].en) = (1, 1);
    configure(&mut h, 5, 1);
    h.timer = Timer {
        count: 40,
        timeout: 1,
        ..alert_due(0)
    };
    for count in (0..40).rev() {
        sample(&mut h, REST);
        assert_eq!((h.timer.count, h.timer.number), (count, 0));
    }
    assert_eq!(failed(&h), (0, 0));
}
