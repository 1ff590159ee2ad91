//! The boot as a list of accesses, on new and on used handlers.

mod common;

use common::policy::{boot, booted, configured, success, LIFECYCLES};
use common::timer::{alert_due, line_due};
use common::{new, raised, read, tick, write, Numbers, REST};
use reference::class::{IDLE, PHASE0};
use reference::installer::{self, accesses, steps};
use reference::policy::CLASSIFICATION;
use reference::{install, Access, Handler, Place, Receiver, Timer};

#[test]
fn the_table_s_ids_are_its_places() {
    for (place, (name, id, _)) in CLASSIFICATION.iter().enumerate() {
        assert_eq!(usize::from(*id), place, "{name}");
    }
}

#[test]
fn the_accesses_come_in_the_request_s_order() {
    for lifecycle in LIFECYCLES {
        let expected = boot(lifecycle);
        let plain: Vec<_> = expected.iter().map(|row| row.0).collect();
        assert_eq!(accesses(lifecycle), plain);
        let goes_on = steps(lifecycle)
            .into_iter()
            .flat_map(|step| step.accesses().into_iter().map(move |a| step.expected(a)));
        assert!(goes_on.eq(expected.iter().map(|row| row.1)));
    }
}

/// The register of an access of a boot.
fn register(access: Access) -> u16 {
    match access {
        Access::Read { register } | Access::Write { register, .. } => register,
        _ => panic!("no register"),
    }
}

#[test]
fn it_stops_at_any_other_answer() {
    // The handler never reads back another value, so the answers are made up.
    for lifecycle in LIFECYCLES {
        let list = boot(lifecycle);
        for (at, (access, goes_on)) in list.iter().enumerate() {
            for other in [-3, goes_on ^ 1, 0xFFFF_FFFE] {
                let mut ticks = 0;
                let stopped = installer::boot(lifecycle, |asked| {
                    assert_eq!(asked, list[ticks].0);
                    ticks += 1;
                    match ticks - 1 {
                        tick if tick == at => other,
                        tick => list[tick].1,
                    }
                });
                assert_eq!(stopped, (other, register(*access)));
                assert_eq!(ticks, at + 1);
            }
        }
    }
}

#[test]
fn all_wires_are_at_rest() {
    // From every place of the handshake, (0,1) leads to Ready and stays there.
    let places = [
        Place::Ready,
        Place::Acknowledged,
        Place::FirstPause,
        Place::SecondPause,
    ];
    let receiver = |i: usize| Receiver {
        place: places[i % 4],
        ping: i % 8 < 4,
        open: false,
    };
    for n in [58, 248] {
        let mut h = new(n);
        h.receivers = std::array::from_fn(receiver);
        let h = success(h, 1);
        for (i, reached) in h.receivers.into_iter().enumerate() {
            let mut expected = receiver(i);
            if i < n as usize {
                expected.place = Place::Ready;
            }
            assert_eq!(reached, expected, "N {n}, {i}");
        }
    }
}

#[test]
fn an_open_ping_is_not_answered() {
    let waited = Timer {
        count: 432,
        ..alert_due(58)
    };
    let mut h = new(59);
    (h.timer, h.receivers[58].open) = (alert_due(58), true);
    let h = success(h, 0);
    assert_eq!((h.timer, h.receivers[58].open), (waited, true));
    for e in 0..4 {
        let mut h = new(58);
        h.timer = line_due(e);
        tick(&mut h, Access::None, REST);
        assert_eq!(h.timer.lines, 1 << e);
        // A pair at rest is no answer, and the ping waits for ever.
        let waited = Timer {
            count: 432,
            wrong: true,
            ..h.timer
        };
        assert_eq!(success(h, 0).timer, waited);
    }
}

#[test]
fn the_words_are_0() {
    // Two turns end in the boot: an alert's at once, as it is not locked, and
    // the next line's with a ping that fails. The word 0 then draws alert 0,
    // which is not locked either, and the line after it waits for ever.
    let mut h = new(58);
    h.timer = Timer {
        timeout: 400,
        alert: 57,
        count: 9,
        ..alert_due(57)
    };
    let mut expected = booted(h.clone(), 0);
    expected.timer = Timer {
        number: 3,
        alert: 0,
        // Opened in tick 10, failed in 410, ended in 411, opened in 412 and
        // the boot ends after 431, counted from 0.
        count: 431 - 412,
        lines: 2,
        wrong: true,
        ..h.timer
    };
    // Ticks: 0 to 8 count down, 9 is due and ends the turn, 10 opens line 0's
    // ping, which fails in 410; 411 ends alert 0's turn, 412 opens line 1's.
    assert_eq!(success(h, 0), expected);
}

#[test]
fn what_the_policy_does_not_name_stays() {
    for lifecycle in LIFECYCLES {
        let mut h = new(248);
        (h.intr_state, h.intr_enable) = (9, 10);
        let others = h.locals.iter_mut().chain(&mut h.alerts[58..]);
        for (at, source) in others.enumerate() {
            (source.en, source.class, source.cause) = (1, at as u8 % 4, 1);
        }
        for (i, alert) in h.alerts[..58].iter_mut().enumerate() {
            (alert.en, alert.class, alert.cause) = (i as u8 % 2, 3 - i as u8 % 4, 1);
        }
        for class in &mut h.classes {
            (class.clr_regwen, class.accum_cnt, class.accum_thresh) = (0, 7, 9);
        }
        for register in [24, 38, 570, 826, 759, 1015] {
            assert_eq!(write(&mut h, register, 1), 0);
        }
        // Locked, stages and all.
        (h.locals[6].regwen, h.alerts[58].regwen) = (0, 0);
        assert_eq!(success(h.clone(), lifecycle), booted(h, lifecycle));
    }
}

#[test]
fn a_booted_handler_escalates_as_the_policy_means() {
    let mut h = success(new(58), 1);
    // An alert of class C, then one of D: a cause and no more.
    tick(&mut h, Access::None, raised(&[0]));
    tick(&mut h, Access::None, raised(&[0, 57]));
    assert_eq!((h.alerts[0].cause, h.alerts[57].cause), (1, 1));
    assert_eq!((h.intr_state, h.classes.map(|c| c.state)), (0, [IDLE; 4]));
    tick(&mut h, Access::None, raised(&[0, 57, 31]));
    assert_eq!((h.classes[1].state, write(&mut h, 1299, 1)), (PHASE0, 0));
    assert_eq!(tick(&mut h, Access::None, raised(&[14])).lines, 1);
    assert_eq!((h.classes[0].state, write(&mut h, 1283, 1)), (PHASE0, -3));
    // Only what is A is locked.
    for (register, answer) in [(782, -3), (526, -3), (1281, -3), (799, 0), (1297, 0)] {
        assert_eq!(write(&mut h, register, 0), answer, "{register}");
    }
}

/// A handler after a random life: stages, events, now and then a lock; the
/// ping timer on or off.
fn random(numbers: &mut Numbers, n: u64, locks: bool) -> Handler {
    let mut h = new(n);
    h.timer = Timer {
        enable: numbers.below(2) as u8,
        timeout: numbers.below(9) as u16,
        number: numbers.next() as u8,
        ..Timer::new()
    };
    for _ in 0..numbers.below(400) {
        let rows = configured(numbers.below(6) as u8);
        let (register, value) = rows[numbers.below(rows.len() as u64) as usize];
        let value = match numbers.below(8) {
            0 => value ^ 1,
            _ => value,
        };
        let access = match numbers.below(100) {
            0 if locks => Access::Write {
                register: 256 + numbers.below(58) as u16,
                value: 0,
            },
            1 => Access::Write {
                register: 1,
                value: numbers.below(16) as u32,
            },
            2..=9 => Access::None,
            _ => Access::Write { register, value },
        };
        let mut sample = raised(&[numbers.below(n) as usize]);
        sample.word = numbers.next() as u32 & 0x3F_0007;
        sample = numbers.received(sample);
        tick(&mut h, access, sample);
        // Most stages are closed again.
        if numbers.below(16) != 0 {
            read(&mut h, register);
        }
    }
    h
}

#[test]
fn a_boot_is_its_accesses_up_to_the_first_that_stops() {
    let mut numbers = Numbers(61);
    let mut seen = [0; 3];
    for round in 0..600 {
        let n = [58, 64, 248][round % 3];
        let lifecycle = numbers.below(6) as u8;
        let start = random(&mut numbers, n, round % 2 == 0);
        let (mut h, mut stopped) = (start.clone(), (0, 0));
        for (access, goes_on) in boot(lifecycle) {
            let answer = tick(&mut h, access, REST).answer;
            if answer != goes_on {
                stopped = (answer, register(access));
                break;
            }
        }
        let installed = install(start, lifecycle);
        assert_eq!((installed.answer, installed.register), stopped);
        assert_eq!(installed.handler, h);
        match stopped.0 {
            0 => seen[0] += 1,
            -3 => seen[1] += 1,
            -12 => seen[2] += 1,
            answer => panic!("{answer}"),
        }
    }
    assert!(seen.iter().all(|many| *many > 20), "{seen:?}");
}

#[test]
fn the_receive_pairs_are_at_rest() {
    // With no line on that is the right answer all the while.
    let mut h = new(58);
    h.locals[3].en = 1;
    assert_eq!(success(h.clone(), 0).locals[3].cause, 0);
    // With line 3 on for the whole boot it is a fault in every other tick.
    h.classes[3].state = PHASE0 + 3;
    (h.classes[3].esc_cnt, h.classes[3].phase_cyc[3]) = (1, u32::MAX);
    let installed = install(h.clone(), 0).handler;
    assert_eq!(installed.locals[3].cause, 1);
    // A ping of a line is answered by no boot, and it fails.
    let mut h = new(58);
    (h.locals[1].en, h.locals[3].en, h.timer) = (1, 1, line_due(2));
    h.timer.timeout = 9;
    let installed = success(h, 0);
    assert_eq!(installed.locals[1].cause, 1);
    assert_eq!(installed.locals[3].cause, 1);
}
