//! The registers of the ping timer: 4 locks 5 and 6, 5 is shadowed, and 6 goes
//! on by a written 1.

mod common;

use common::timer::{drawing, entropy};
use common::{configure, idle, new, read, tick, write, REST};
use reference::timer::{TimerField, Turn};
use reference::{Access, Handler, Timer};

fn put(register: u16, value: u32) -> Access {
    Access::Write { register, value }
}

/// A handler whose timer is on, at the turn that this word set.
fn on(word: u32) -> Handler {
    let mut h = new(1);
    assert_eq!(tick(&mut h, put(6, 1), drawing(REST, word)).answer, 0);
    h
}

#[test]
fn at_reset() {
    for n in [1, 64, 248] {
        let mut h = new(n);
        for (register, value) in [(3, -1), (4, 1), (5, 0), (6, 0), (7, -1)] {
            assert_eq!(read(&mut h, register), value, "{register}");
        }
        assert_eq!(h, new(n));
        assert_eq!((h.timer, h.timer.on()), (Timer::default(), false));
    }
}

// Register 4

#[test]
fn register_4_follows_the_rule_of_every_regwen() {
    let mut h = new(1);
    for (value, answer, after) in [
        (1, 0, 1),
        (2, -4, 1),
        (u32::MAX, -4, 1),
        (0, 0, 0),
        (1, -3, 0),
        (2, -4, 0),
        (0, 0, 0),
    ] {
        assert_eq!(write(&mut h, 4, value), answer, "{value}");
        assert_eq!((read(&mut h, 4), h.timer.regwen), (after.into(), after));
    }
}

#[test]
fn it_locks_5_and_6_and_nothing_else() {
    let mut h = new(1);
    configure(&mut h, 5, 7);
    assert_eq!(write(&mut h, 4, 0), 0);
    let before = h.clone();
    for (register, largest) in [(5, 0xFFFF), (6, 1)] {
        for value in [0, 1, largest] {
            assert_eq!(write(&mut h, register, value), -3, "{register}");
        }
        // 4 comes before 3.
        for value in [largest + 1, 1 << 31, u32::MAX] {
            assert_eq!(write(&mut h, register, value), -4, "{register}");
        }
    }
    assert_eq!(h, before);
    assert_eq!((read(&mut h, 5), read(&mut h, 6)), (7, 0));
    for register in [1, 16, 24, 256, 512, 1280, 1281, 1285] {
        assert_eq!(write(&mut h, register, 1), 0, "{register}");
    }
}

#[test]
fn no_other_lock_locks_them() {
    let mut h = new(1);
    for register in [16, 17, 256, 1280, 1282, 1296, 1312, 1328] {
        assert_eq!(write(&mut h, register, 0), 0, "{register}");
    }
    configure(&mut h, 5, 7);
    assert_eq!((write(&mut h, 6, 1), write(&mut h, 4, 1)), (0, 0));
    assert_eq!((h.timer.timeout, h.timer.enable), (7, 1));
}

#[test]
fn a_locked_timer_runs_on() {
    let mut h = on(entropy(2, 0));
    let mut other = h.clone();
    assert_eq!(write(&mut h, 4, 0), 0);
    idle(&mut other);
    for _ in 0..9 {
        other.timer.regwen = 0;
        assert_eq!(h, other);
        idle(&mut h);
        idle(&mut other);
    }
    assert_eq!((h.timer.number, h.timer.lines), (1, 1));
}

// Register 5

#[test]
fn the_timeout_takes_two_equal_writes() {
    for value in [0, 1, 2, 255, 256, 65534, 65535] {
        let mut h = new(1);
        h.timer.timeout = 300;
        assert_eq!(write(&mut h, 5, value), 0);
        assert_eq!((h.timer.timeout, h.timer.stage), (300, value + 1));
        assert_eq!(h.timer.staged(TimerField::Timeout), Some(value));
        assert!(h.valid());
        assert_eq!(write(&mut h, 5, value), 0);
        assert_eq!((u32::from(h.timer.timeout), h.timer.stage), (value, 0));
        assert_eq!(read(&mut h, 5), value.into());
    }
}

#[test]
fn a_differing_write_of_the_timeout_makes_local_5_occur() {
    for en in [0, 1] {
        let mut h = new(1);
        (h.timer.timeout, h.locals[5].en) = (3, en);
        assert_eq!(write(&mut h, 5, 8), 0);
        assert_eq!(write(&mut h, 5, 9), -12);
        assert_eq!((h.timer.timeout, h.timer.stage), (3, 0));
        assert_eq!(h.locals[5].cause, en);
        // The 9 was not staged.
        assert_eq!(write(&mut h, 5, 9), 0);
        assert_eq!((h.timer.timeout, h.timer.stage), (3, 10));
    }
}

#[test]
fn what_drops_the_stage_of_the_timeout() {
    let staged = |h: &mut Handler| {
        assert_eq!(write(h, 5, 8), 0);
        assert_eq!(h.timer.stage, 9);
    };
    // A read of it, and a write refused with 3.
    let mut h = new(1);
    staged(&mut h);
    assert_eq!((read(&mut h, 5), h.timer.stage), (0, 0));
    staged(&mut h);
    assert_eq!((write(&mut h, 4, 0), h.timer.stage), (0, 9));
    assert_eq!((write(&mut h, 5, 65536), h.timer.stage), (-4, 9));
    assert_eq!((write(&mut h, 5, 8), h.timer.stage), (-3, 0));
    // Nothing else does.
    let mut h = new(1);
    staged(&mut h);
    assert_eq!(write(&mut h, 5, 65536), -4);
    assert_eq!(tick(&mut h, Access::Malformed, REST).answer, -5);
    for register in [4, 6] {
        assert!(read(&mut h, register) >= 0);
        assert_eq!(write(&mut h, register, 2), -4);
        assert_eq!(write(&mut h, register, 1), 0);
    }
    assert_eq!(h.timer.stage, 9);
    for register in (0..2048).filter(|register| *register != 5) {
        read(&mut h, register);
        write(&mut h, register, 0);
    }
    assert_eq!(h.timer.stage, 9);
}

#[test]
fn a_read_under_the_lock_drops_the_stage_too() {
    let mut h = new(1);
    assert_eq!((write(&mut h, 5, 8), write(&mut h, 4, 0)), (0, 0));
    assert_eq!((read(&mut h, 5), h.timer.stage), (0, 0));
}

// Register 6

#[test]
fn one_written_1_switches_the_timer_on() {
    let mut h = on(0);
    assert_eq!((read(&mut h, 6), h.timer.on()), (1, true));
    assert_eq!(h.timer.staged(TimerField::Enable), None);
    for value in [2, 3, 1 << 31, u32::MAX] {
        let before = new(1);
        let mut h = before.clone();
        assert_eq!((write(&mut h, 6, value), &h), (-4, &before));
    }
}

#[test]
fn a_written_0_does_nothing() {
    let mut h = new(1);
    let sample = drawing(REST, entropy(9, 9));
    assert_eq!(tick(&mut h, put(6, 0), sample).answer, 0);
    assert_eq!(h, new(1));
    // On it stays on, and its turn goes on as without the access.
    let mut h = on(entropy(3, 0));
    let mut plain = h.clone();
    for _ in 0..9 {
        assert_eq!(tick(&mut h, put(6, 0), sample).answer, 0);
        tick(&mut plain, Access::None, sample);
        assert_eq!((&h, h.timer.enable), (&plain, 1));
    }
}

#[test]
fn a_1_on_1_sets_no_turn() {
    let mut h = on(entropy(3, 0));
    let mut plain = h.clone();
    // The turn ends in the fourth tick, and the word of that one counts.
    for now in 0..9 {
        let sample = drawing(REST, entropy(50 + now, 7));
        assert_eq!(tick(&mut h, put(6, 1), sample).answer, 0);
        tick(&mut plain, Access::None, sample);
        assert_eq!(h, plain);
    }
    assert_eq!((h.timer.number, h.timer.count), (1, 53 - 5));
}

#[test]
fn a_refused_write_sets_no_turn() {
    let mut h = new(1);
    assert_eq!(write(&mut h, 4, 0), 0);
    let before = h.clone();
    for (access, answer) in [
        (put(6, 1), -3),
        (put(6, 0), -3),
        (put(6, 3), -4),
        (Access::Malformed, -5),
    ] {
        let sample = drawing(REST, u32::MAX);
        assert_eq!(tick(&mut h, access, sample).answer, answer);
        assert_eq!(h, before);
    }
    // The same while it is on: the turn goes on as without the access.
    let mut h = on(entropy(20, 0));
    h.timer.regwen = 0;
    assert_eq!((write(&mut h, 6, 1), h.timer.count), (-3, 19));
    assert_eq!((write(&mut h, 6, 0), h.timer.count), (-3, 18));
    assert_eq!((h.timer.enable, h.timer.number), (1, 0));
}

#[test]
fn switching_on_sets_an_alerts_turn_whatever_stood_there() {
    for number in [0, 1, 7, 254, 255] {
        let mut h = new(1);
        (h.timer.number, h.timer.alert, h.timer.count) = (number, 99, 12345);
        // While it is off nothing moves.
        let before = h.clone();
        idle(&mut h);
        assert_eq!(h, before);
        tick(&mut h, put(6, 1), drawing(REST, entropy(4, 200)));
        let expected = Timer {
            enable: 1,
            count: 4,
            alert: 200,
            ..Timer::new()
        };
        assert_eq!((h.timer, h.timer.turn()), (expected, Turn::Alert(200)));
    }
}

#[test]
fn no_other_register_reaches_the_timer() {
    let start = on(entropy(9, 0));
    for register in (0..2048).filter(|register| !(4..=6).contains(register)) {
        for value in [0, 1, u32::MAX] {
            let mut h = start.clone();
            write(&mut h, register, value);
            let expected = Timer {
                count: 8,
                ..start.timer
            };
            assert_eq!(h.timer, expected, "{register}");
        }
    }
}
