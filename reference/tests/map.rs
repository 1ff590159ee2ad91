//! The register map at every number, today's and the first one's, and the
//! numbers of alerts.

mod common;

use common::records::{record, renumbered, unpack, EDITIONS};
use common::timer::answering;
use common::{configure, new, raised, read, ready, tick, write, COUNTS, REST};
use reference::carried::without_timer;
use reference::handler::MAX_ALERTS;
use reference::{batch, carried, Access, Edition, Handler, Place, Receiver, Timer};

/// The four alert blocks, today's and the first map's.
const BLOCKS: [u16; 4] = [256, 512, 768, 1024];
const FIRST_BLOCKS: [u16; 4] = [64, 128, 192, 256];

/// The ping timer at reset.
const TIMER: Timer = Timer {
    regwen: 1,
    enable: 0,
    timeout: 0,
    stage: 0,
    number: 0,
    alert: 0,
    count: 0,
    lines: 0,
    wrong: false,
};

/// What reading a number gives in a new handler of `n` alerts, from where the
/// alert blocks and the classes lie, if there is no ping timer.
fn at_reset(number: u16, n: u16, blocks: [u16; 4], classes: u16) -> i64 {
    for (block, start) in blocks.into_iter().enumerate() {
        if (start..start + n).contains(&number) {
            return i64::from(block == 0);
        }
    }
    if (classes..classes + 64).contains(&number) {
        return match (number - classes) % 16 {
            0 | 2 => 1,
            1 => 0x393C,
            3 => -2,
            4..=12 => 0,
            _ => -1,
        };
    }
    match number {
        0 | 1 | 24..=30 | 32..=38 | 40..=46 => 0,
        16..=22 => 1,
        2 => -2,
        _ => -1,
    }
}

/// The answer to an access in a record.
fn through_record(h: &mut Handler, edition: Edition, access: Access) -> i64 {
    let mut out = [0];
    let bytes = record(edition, access, REST);
    assert_eq!(batch(h, edition, &bytes, &mut out), 0);
    unpack(out[0]).answer
}

// Today's map

#[test]
fn todays_map_at_reset() {
    for n in COUNTS {
        let mut h = new(n);
        let mut found = 0;
        for number in 0..2048u16 {
            let expected = at_reset(number, n as u16, BLOCKS, 1280);
            // The ping timer has numbers that no older record reaches.
            let (expected, old) = match number {
                4 => (1, -1),
                5 | 6 => (0, -1),
                _ => (expected, expected),
            };
            assert_eq!(read(&mut h, number), expected, "N {n}, {number}");
            let access = Access::Read { register: number };
            let answer = through_record(&mut h, Edition::Fourth, access);
            assert_eq!(answer, expected, "N {n}, {number} in a record");
            found += u64::from(answer != -1);
            let answer = through_record(&mut h, Edition::Second, access);
            assert_eq!(answer, old, "N {n}, {number} in an older record");
        }
        assert_eq!(found, 3 + 3 + 28 + 4 * n + 52);
        // Numbers that no record holds are unassigned for a plain access.
        for number in [2048, 2048 + 1281, 32768, 65535] {
            assert_eq!(read(&mut h, number), -1);
        }
        assert_eq!(h, new(n));
    }
}

#[test]
fn both_ends_of_every_alert_block() {
    for n in COUNTS {
        let last = n as u16 - 1;
        for (block, start) in BLOCKS.into_iter().enumerate() {
            let mut h = new(n);
            // REGWEN starts at 1, the others at 0; a cause takes no 1.
            let value = [0, 1, 3, 1][block];
            for i in [0, last] {
                configure(&mut h, start + i, value);
                let alert = h.alerts[usize::from(i)];
                let stored = [alert.regwen, alert.en, alert.class, alert.cause];
                let mut expected = [1, 0, 0, 0];
                if block < 3 {
                    expected[block] = value as u8;
                }
                assert_eq!(stored, expected, "N {n}, register {}", start + i);
            }
            let before = h.clone();
            for outside in [start - 1, start + last + 1, start + 248, start + 255] {
                assert_eq!(read(&mut h, outside), -1, "N {n}, {outside}");
                assert_eq!(write(&mut h, outside, 1), -1, "N {n}, {outside}");
            }
            assert_eq!(h, before);
        }
    }
}

#[test]
fn both_ends_of_the_classes() {
    let mut h = new(248);
    for number in [1279, 1293, 1294, 1295, 1344, 1345, 2047] {
        assert_eq!(read(&mut h, number), -1);
        assert_eq!(write(&mut h, number, 0), -1);
    }
    for k in 0..4u16 {
        configure(&mut h, 1280 + 16 * k + 1, 0x2000 + u32::from(k));
        configure(&mut h, 1280 + 16 * k + 10, 77 + u32::from(k));
        assert_eq!(write(&mut h, 1280 + 16 * k, 0), 0);
        assert_eq!(read(&mut h, 1280 + 16 * k + 12), 0);
    }
    for (k, class) in h.classes.iter().enumerate() {
        assert_eq!(usize::from(class.ctrl), 0x2000 + k);
        assert_eq!(class.phase_cyc, [0, 0, 0, 77 + k as u32]);
        assert_eq!(class.regwen, 0);
    }
}

// The first map

#[test]
fn the_first_map_at_reset() {
    for n in [1, 2, 5, 63, 64] {
        let mut h = new(n);
        let mut found = 0;
        for number in 0..1024u16 {
            let access = Access::Read { register: number };
            let answer = through_record(&mut h, Edition::First, access);
            let expected = at_reset(number, n as u16, FIRST_BLOCKS, 320);
            assert_eq!(answer, expected, "N {n}, {number}");
            found += u64::from(answer != -1);
        }
        assert_eq!(found, 3 + 28 + 4 * n + 52);
        assert_eq!(h, new(n));
    }
}

#[test]
fn each_number_is_carried() {
    for number in 0..1024 {
        let assigned = at_reset(number, 64, FIRST_BLOCKS, 320) != -1;
        let expected = renumbered(number).filter(|_| assigned).unwrap_or(2047);
        assert_eq!(carried(number), expected, "{number}");
    }
    for number in [1024, 1281, 2047, 65535] {
        assert_eq!(carried(number), 2047);
    }
    let pairs = [
        (64, 256),
        (127, 319),
        (128, 512),
        (191, 575),
        (192, 768),
        (255, 831),
        (256, 1024),
        (319, 1087),
        (320, 1280),
        (332, 1292),
        (368, 1328),
        (380, 1340),
    ];
    for (old, new) in pairs {
        assert_eq!(carried(old), new);
    }
}

#[test]
fn numbers_unassigned_then_are_still_refused() {
    for n in [1, 64] {
        let mut h = new(n);
        for number in 0..1024 {
            if at_reset(number, n as u16, FIRST_BLOCKS, 320) != -1 {
                continue;
            }
            // 512, say, is an alert's EN now, and 0 a value of any field.
            for value in [0, 1, u32::MAX] {
                let access = Access::Write {
                    register: number,
                    value,
                };
                let answer = through_record(&mut h, Edition::First, access);
                assert_eq!(answer, -1, "N {n}, write {value} to {number}");
            }
        }
        assert_eq!(h, new(n));
    }
}

#[test]
fn the_ping_timer_is_unassigned_in_older_editions() {
    for edition in [Edition::First, Edition::Second] {
        for n in [1, 64] {
            let mut h = new(n);
            assert_eq!(write(&mut h, 5, 9), 0);
            let before = h.clone();
            for register in [4, 5, 6] {
                let read = Access::Read { register };
                assert_eq!(through_record(&mut h, edition, read), -1);
                for value in [0, 1, 9, u32::MAX] {
                    let access = Access::Write { register, value };
                    let answer = through_record(&mut h, edition, access);
                    assert_eq!(answer, -1, "{edition:?}, {value} to {register}");
                }
            }
            // Not even the stage went.
            assert_eq!(h, before);
        }
    }
}

#[test]
fn only_the_ping_timers_numbers_go_from_the_second_edition() {
    for number in 0..2048 {
        let expected = match number {
            4..=6 => 2047,
            _ => number,
        };
        assert_eq!(without_timer(number), expected, "{number}");
    }
}

#[test]
fn a_carried_write_reaches_its_register() {
    for number in 0..384 {
        let today = match renumbered(number) {
            Some(today) => today,
            None => continue,
        };
        for value in [0, 1, 2, 3, 15, 16, 0x3FFF, 0x4000, 0xFFFF, 0x1_0000] {
            let (mut old, mut new) = (ready(64, 0x393D), ready(64, 0x393D));
            tick(&mut old, Access::None, raised(&[0, 63]));
            tick(&mut new, Access::None, raised(&[0, 63]));
            let access = Access::Write {
                register: number,
                value,
            };
            // The first may be staged only.
            for _ in 0..2 {
                let answer = through_record(&mut old, Edition::First, access);
                // The old record does not check the senders.
                let register = today;
                let ticked = tick(
                    &mut new,
                    Access::Write { register, value },
                    answering(REST, 0),
                );
                assert_eq!(answer, ticked.answer, "{number}, {value}");
                assert_eq!(old, new, "{number}, {value}");
            }
        }
    }
}

// Numbers of alerts

#[test]
fn a_new_handler_has_248_entries_at_reset() {
    for n in COUNTS {
        let h = new(n);
        assert_eq!(h.n, n);
        assert_eq!((h.alerts.len(), h.receivers.len()), (248, MAX_ALERTS));
        assert_eq!(h.timer, TIMER);
        for i in 0..248 {
            let alert = h.alerts[i];
            let stored = [alert.regwen, alert.en, alert.class, alert.cause];
            assert_eq!(stored, [1, 0, 0, 0]);
            let ready = Receiver {
                place: Place::Ready,
                ping: false,
                open: false,
            };
            assert_eq!(h.receivers[i], ready);
            assert_eq!((h.stages.alerts.en[i], h.stages.alerts.class[i]), (0, 0));
        }
    }
}

#[test]
fn refused_numbers_of_alerts() {
    for n in 1..=248 {
        assert_eq!(Handler::new(n).1, 0);
    }
    for n in [0, 249, 255, 256, 256 + 248, 1 << 32, u64::MAX] {
        let (mut h, answer) = Handler::new(n);
        assert_eq!(answer, -6);
        assert_eq!(h.n, 0);
        assert!(h.valid());
        assert_eq!(read(&mut h, 256), -1);
        assert_eq!(read(&mut h, 1281), 0x393C);
        // No alerts are not more than 64, so all editions run.
        let ctrl = |register| Access::Read { register };
        for (edition, number) in EDITIONS.into_iter().zip([321, 1281, 1281, 1281]) {
            assert_eq!(through_record(&mut h, edition, ctrl(number)), 0x393C);
        }
        h.n = 1;
        assert_eq!(h, new(1));
    }
}
