//! The installer: what a boot leaves, its ticks, and where it stops.

mod common;

use common::policy::{alert, booted, configured, ctrls, letters, success, LENGTHS, LIFECYCLES};
use common::shadowed::{held, open, stage};
use common::{configure, new, read, write};
use reference::class::PHASE3;
use reference::installer::accesses;
use reference::{install, Handler, Place};

/// Answer and register of a boot.
fn stop(h: &Handler, lifecycle: u8) -> (i64, u16) {
    let installed = install(h.clone(), lifecycle);
    (installed.answer, installed.register)
}

/// A handler whose class 1 counts the ticks: Phase 3, of the length that the
/// boot writes.
fn counting(n: u64) -> Handler {
    let mut h = new(n);
    let class = &mut h.classes[1];
    (class.state, class.esc_cnt, class.phase_cyc[3]) = (PHASE3, 1, u32::MAX);
    h
}

/// The ticks of a boot of such a handler.
fn ticks(h: &Handler, lifecycle: u8) -> u32 {
    let class = install(h.clone(), lifecycle).handler.classes[1];
    assert_eq!(class.state, PHASE3);
    class.esc_cnt - h.classes[1].esc_cnt
}

// Success

#[test]
fn a_new_handler_boots_in_each_lifecycle() {
    for n in [58, 59, 64, 65, 128, 247, 248] {
        for lifecycle in LIFECYCLES {
            let h = success(new(n), lifecycle);
            assert_eq!(h, booted(new(n), lifecycle), "{n}, {lifecycle}");
        }
    }
}

/// What a read of a register answers after a boot of a new handler.
fn after(number: u16, n: u16, lifecycle: u8) -> i64 {
    let letter = |i: u16| *letters(lifecycle).get(usize::from(i)).unwrap_or(&b'X');
    let k = usize::from(number % 64 / 16);
    let class_locked = k == 0 && [1, 2].contains(&lifecycle);
    match number {
        0 | 1 => 0,
        2 => -2,
        4 => 1,
        5 | 6 => 0,
        16..=22 => 1,
        24..=30 | 32..=38 | 40..=46 => 0,
        256..=1279 if number % 256 >= n => -1,
        256..=511 => i64::from(letter(number - 256) != b'A'),
        512..=767 => alert(letter(number - 512)).0.into(),
        768..=1023 => alert(letter(number - 768)).1.into(),
        1024..=1279 => 0,
        1280..=1343 => match number % 16 {
            0 => i64::from(!class_locked),
            1 => ctrls(lifecycle)[k].into(),
            2 => 1,
            3 => -2,
            at @ 7..=10 => LENGTHS[k][usize::from(at) - 7].into(),
            4..=6 | 11 | 12 => 0,
            _ => -1,
        },
        _ => -1,
    }
}

#[test]
fn every_register_holds_what_the_table_says() {
    for n in [58, 248] {
        for lifecycle in LIFECYCLES {
            let mut h = success(new(n), lifecycle);
            for number in 0..2048 {
                let expected = after(number, n as u16, lifecycle);
                assert_eq!(read(&mut h, number), expected, "{number}, {lifecycle}");
            }
        }
    }
}

#[test]
fn a_number_over_5_installs_prod_end() {
    assert_eq!(accesses(1), accesses(2));
    let expected = success(new(58), 2);
    for lifecycle in 6..=255 {
        assert_eq!(accesses(lifecycle), accesses(2));
        assert_eq!(success(new(58), lifecycle), expected);
    }
}

#[test]
fn a_boot_takes_432_ticks_and_474_with_locks() {
    for (lifecycle, many) in LIFECYCLES.into_iter().zip([432, 474, 474, 432, 432, 432]) {
        assert_eq!(accesses(lifecycle).len(), many);
        for n in [58, 248] {
            success(counting(n), lifecycle);
            assert_eq!(ticks(&counting(n), lifecycle), many as u32);
        }
    }
}

// Stops

/// The handler with the first registers of a boot configured.
fn partly(mut h: Handler, lifecycle: u8, registers: usize) -> Handler {
    for (register, value) in &configured(lifecycle)[..registers] {
        configure(&mut h, *register, *value);
    }
    h
}

#[test]
fn it_stops_at_an_alert_that_is_locked() {
    for lifecycle in LIFECYCLES {
        for i in 0..58 {
            let mut h = new(58);
            h.alerts[i].regwen = 0;
            assert_eq!(stop(&h, lifecycle), (-3, 768 + i as u16));
            let reached = install(h.clone(), lifecycle).handler;
            assert_eq!(reached, partly(h, lifecycle, 2 * i));

            let mut h = counting(58);
            h.alerts[i].regwen = 0;
            assert_eq!(ticks(&h, lifecycle), 6 * i as u32 + 1);
        }
        // One that the policy does not name, and a clear, do not matter.
        let mut h = new(59);
        (h.alerts[58].regwen, h.classes[0].clr_regwen) = (0, 0);
        success(h, lifecycle);
    }
}

#[test]
fn it_stops_even_where_the_locked_alert_stands_as_it_should() {
    for lifecycle in LIFECYCLES {
        let mut h = success(new(58), lifecycle);
        h.alerts[0].regwen = 0;
        assert_eq!(stop(&h, lifecycle), (-3, 768));
    }
}

#[test]
fn it_stops_at_a_class_that_is_locked() {
    for lifecycle in LIFECYCLES {
        for (k, register) in [1285, 1301, 1317, 1333].into_iter().enumerate() {
            let mut h = new(248);
            h.classes[k].regwen = 0;
            assert_eq!(stop(&h, lifecycle), (-3, register));
            let reached = install(h.clone(), lifecycle).handler;
            assert_eq!(reached, partly(h, lifecycle, 116 + 7 * k));

            let mut h = counting(248);
            h.classes[k].regwen = 0;
            assert_eq!(ticks(&h, lifecycle), 348 + 21 * k as u32 + 1);
        }
    }
}

#[test]
fn a_lock_drops_the_stage_at_which_it_stops() {
    let mut h = new(58);
    for register in [768 + 20, 512 + 20] {
        assert_eq!(write(&mut h, register, 1), 0);
    }
    h.alerts[20].regwen = 0;
    let reached = install(h, 3).handler;
    assert_eq!((stage(&reached, 788), stage(&reached, 532)), (0, 2));
}

#[test]
fn it_stops_at_a_stage_that_differs() {
    for lifecycle in LIFECYCLES {
        for (at, (register, value)) in configured(lifecycle).into_iter().enumerate() {
            let mut h = counting(58);
            // Local 5 occurs, in class 3, which is not enabled.
            (h.locals[5].en, h.locals[5].class) = (1, 3);
            let before = held(&h, register);
            assert_eq!(write(&mut h, register, value ^ 1), 0);
            assert_eq!(stop(&h, lifecycle), (-12, register));
            assert_eq!(ticks(&h, lifecycle), 3 * at as u32 + 1);
            let reached = install(h, lifecycle).handler;
            assert_eq!((held(&reached, register), open(&reached)), (before, 0));
            assert_eq!((reached.locals[5].cause, reached.intr_state), (1, 0));
            let mut expected = new(58);
            (expected.locals[5].en, expected.locals[5].class) = (1, 3);
            expected.locals[5].cause = 1;
            expected = partly(expected, lifecycle, at);
            // An escalation of class 1 runs all the while.
            expected.classes[1] = reached.classes[1];
            expected.senders = reached.senders;
            assert_eq!(reached, expected);
        }
    }
}

#[test]
fn it_goes_on_from_an_equal_stage() {
    for lifecycle in LIFECYCLES {
        let mut all = new(58);
        for (register, value) in configured(lifecycle) {
            let mut h = new(58);
            assert_eq!(write(&mut h, register, value), 0);
            assert_eq!(success(h, lifecycle), booted(new(58), lifecycle));
            assert_eq!(write(&mut all, register, value), 0);
        }
        assert_eq!(open(&all), 144);
        assert_eq!(success(all, lifecycle), booted(new(58), lifecycle));
    }
}

#[test]
fn a_second_boot_stops_at_the_first_alert_that_the_first_locked() {
    for first in LIFECYCLES {
        let h = success(new(58), first);
        for second in LIFECYCLES {
            if first != 1 && first != 2 {
                let again = success(h.clone(), second);
                assert_eq!(again, booted(new(58), second));
                continue;
            }
            assert_eq!(stop(&h, second), (-3, 782), "{first}, {second}");
            // Alerts 0 to 13 are free and get the second policy.
            let reached = install(h.clone(), second).handler;
            assert_eq!(reached, partly(h.clone(), second, 28));
        }
    }
}

#[test]
fn no_threshold_is_too_silly_to_lock() {
    for lifecycle in LIFECYCLES {
        let mut h = new(58);
        for class in &mut h.classes {
            (class.ctrl, class.accum_thresh) = (0x3FFF, 65535);
        }
        assert_eq!(write(&mut h.clone(), 1280, 0), -14);
        assert_eq!(success(h, lifecycle), booted(new(58), lifecycle));
    }
}

#[test]
fn it_needs_58_alerts() {
    let none = Handler::new(0).0;
    for mut h in [none, new(1), new(2), new(56), new(57)] {
        assert_eq!(write(&mut h, 1285, 9), 0);
        // A tick at rest would move it on.
        h.receivers[0].place = Place::Acknowledged;
        for lifecycle in 0..=255 {
            let installed = install(h.clone(), lifecycle);
            assert_eq!((installed.answer, installed.register), (-13, 0));
            assert_eq!(installed.handler, h);
        }
    }
}

#[test]
fn a_damaged_state_comes_before_all() {
    let damages: [fn(&mut Handler); 10] = [
        |h| h.n = 249,
        |h| h.n = u64::MAX,
        |h| h.intr_enable = 16,
        |h| h.alerts[0].class = 4,
        |h| h.locals[6].en = 2,
        |h| h.classes[3].state = 2,
        |h| h.classes[0].esc_cnt = 1,
        |h| h.stages.classes[1].ctrl = 0x4001,
        |h| h.timer.lines = 1,
        |h| h.receivers[0].open = true,
    ];
    for n in [1, 57, 58, 248] {
        for damage in damages {
            let mut h = new(n);
            h.receivers[0].place = Place::Acknowledged;
            damage(&mut h);
            for lifecycle in 0..=255 {
                let installed = install(h.clone(), lifecycle);
                assert_eq!((installed.answer, installed.register), (-7, 0));
                assert_eq!(installed.handler, h);
            }
        }
    }
    // Entries at N and above are not looked at and stay.
    let mut h = new(58);
    (h.alerts[58].class, h.stages.alerts.en[247]) = (4, 3);
    assert_eq!(success(h.clone(), 1), booted(h, 1));
}
