//! Refusal 14: a class with EN that waits for 65,536 events is not locked so.

mod common;

use common::records::{Bench, EDITIONS};
use common::shadowed::{held, stage_all};
use common::{
    configure, event, new, pause, read, ready, sampled, tick, write, Numbers, ALERT0, REST,
};
use reference::class::{IDLE, PHASE0};
use reference::{Access, Handler, Stages, Ticked};

/// The handler of most tests: two alerts, so that both have a neighbour.
const N: u64 = 2;
/// The REGWEN of each class; CTRL is 1 after it, ACCUM_THRESH 5.
const REGWENS: [u16; 4] = [1280, 1296, 1312, 1328];

/// A handler whose class with this REGWEN has these two, not yet locked.
fn set(regwen: u16, ctrl: u32, thresh: u32) -> Handler {
    let mut h = new(N);
    configure(&mut h, regwen + 1, ctrl);
    configure(&mut h, regwen + 5, thresh);
    h
}

// When it is given

#[test]
fn a_lock_is_refused_while_en_is_1_and_the_threshold_65535() {
    for regwen in REGWENS {
        for ctrl in [0, 1, 2, 0x3C, 0x3D, 0x393C, 0x393D, 0x393F, 0x3FFE, 0x3FFF] {
            for thresh in [0, 1, 32767, 32768, 65533, 65534, 65535] {
                let mut h = set(regwen, ctrl, thresh);
                let silly = ctrl % 2 == 1 && thresh == 65535;
                let answer = if silly { -14 } else { 0 };
                assert_eq!(write(&mut h, regwen, 0), answer, "{ctrl:#x}, {thresh}");
                assert_eq!(read(&mut h, regwen), i64::from(silly));
            }
        }
    }
}

#[test]
fn en_is_the_bit_whatever_the_lines() {
    // EN without a line does not act in steps 3 and 4, and counts here.
    let mut h = set(1280, 0x3FC3, 65535);
    assert!(!h.classes[0].enabled());
    assert_eq!(write(&mut h, 1280, 0), -14);
    // All lines without EN.
    let mut h = set(1280, 0x3FFE, 65535);
    assert_eq!(write(&mut h, 1280, 0), 0);
}

#[test]
fn staged_values_do_not_count() {
    // What would make it silly is staged: accepted, and it never comes in.
    let en = (1281, 0x393D);
    let most = (1285, 65535);
    for (committed, staged) in [(en, most), (most, en)] {
        let mut h = new(N);
        configure(&mut h, committed.0, committed.1);
        assert_eq!(write(&mut h, staged.0, staged.1), 0);
        assert_eq!(write(&mut h, 1280, 0), 0, "{staged:?}");
        assert_eq!(write(&mut h, staged.0, staged.1), -3);
    }
    // What would mend it is staged: refused, until the second write.
    for (number, value) in [(1281, 0x393C), (1285, 65534), (1285, 0)] {
        let mut h = set(1280, 0x393D, 65535);
        assert_eq!(write(&mut h, number, value), 0);
        assert_eq!(write(&mut h, 1280, 0), -14, "{number}");
        assert_eq!(write(&mut h, number, value), 0);
        assert_eq!(held(&h, number), value);
        assert_eq!(write(&mut h, 1280, 0), 0);
    }
}

#[test]
fn a_locked_regwen_still_takes_a_0() {
    for regwen in REGWENS {
        let mut h = set(regwen, 0x393D, 65535);
        // No list of ticks from a new handler comes here; a given state may.
        h.classes[usize::from(regwen - 1280) / 16].regwen = 0;
        let before = h.clone();
        assert_eq!(write(&mut h, regwen, 0), 0);
        assert_eq!(write(&mut h, regwen, 1), -3);
        assert_eq!(write(&mut h, regwen, 2), -4);
        assert_eq!(h, before);
    }
}

#[test]
fn only_a_written_0_gets_it() {
    let mut h = set(1280, 0x393D, 65535);
    let before = h.clone();
    assert_eq!(write(&mut h, 1280, 1), 0);
    for value in [2, 3, 4, 14, 65534, 65535, 1 << 31, u32::MAX - 1, u32::MAX] {
        assert_eq!(write(&mut h, 1280, value), -4, "{value}");
    }
    assert_eq!(read(&mut h, 1280), 1);
    assert_eq!(tick(&mut h, Access::Malformed, REST).answer, -5);
    assert_eq!(h, before);
    assert_eq!(write(&mut h, 1280, 0), -14);
    // 7 comes before all.
    h.intr_enable = 16;
    assert_eq!(write(&mut h, 1280, 0), -7);
}

#[test]
fn only_a_class_regwen_gets_it() {
    let mut silly = new(N);
    for regwen in REGWENS {
        configure(&mut silly, regwen + 1, 0x393D);
        configure(&mut silly, regwen + 5, 65535);
    }
    for number in 0..2048 {
        let mut h = silly.clone();
        let refused = write(&mut h, number, 0) == -14;
        assert_eq!(refused, REGWENS.contains(&number), "{number}");
        assert_ne!(read(&mut h, number), -14);
    }
    // CLR_REGWEN, an alert's and a local alert's lock.
    for number in [1282, 1298, 1314, 1330, 256, 257, 16, 22] {
        assert_eq!(write(&mut silly, number, 0), 0);
        assert_eq!(read(&mut silly, number), 0, "{number}");
    }
}

#[test]
fn each_class_is_judged_by_its_own_registers() {
    for silly in REGWENS {
        let mut h = set(silly, 0x393D, 65535);
        for regwen in REGWENS {
            let answer = if regwen == silly { -14 } else { 0 };
            assert_eq!(write(&mut h, regwen, 0), answer, "{silly}, {regwen}");
        }
    }
    // EN of one class and the threshold of another.
    let mut h = set(1280, 0x393D, 65534);
    configure(&mut h, 1301, 65535);
    assert_eq!((write(&mut h, 1280, 0), write(&mut h, 1296, 0)), (0, 0));
}

// What it leaves

#[test]
fn it_is_as_no_access_in_its_tick() {
    let mut numbers = Numbers(51);
    let mut h = ready(248, 0x393F);
    for (number, value) in [(26, 1), (29, 1), (1285, 65535), (1286, 9), (1287, 3)] {
        configure(&mut h, number, value);
    }
    assert_eq!(write(&mut h, 1, 15), 0);
    stage_all(&mut h);
    // Pings that fail after two ticks.
    h.alerts.iter_mut().for_each(|alert| alert.regwen = 0);
    (h.timer.enable, h.timer.timeout) = (1, 2);
    let lock = Access::Write {
        register: 1280,
        value: 0,
    };
    for _ in 0..2000 {
        let positive = numbers.wires();
        let mut negative = positive.map(|word| !word);
        negative[1] ^= u64::from(numbers.below(20) == 0) << 9;
        let mut sample = sampled(positive, negative);
        sample.word = numbers.next() as u32 & 0xFF_0003;
        sample = numbers.received(sample);
        let mut plain = h.clone();
        let expected = tick(&mut plain, Access::None, sample);
        let ticked = tick(&mut h, lock, sample);
        assert_eq!(expected.answer, 0);
        let refused = Ticked {
            answer: -14,
            ..expected
        };
        assert_eq!(ticked, refused);
        assert_eq!(h, plain);
        if numbers.below(30) == 0 {
            write(&mut h, 0, 15);
            write(&mut h, 1283, 1);
        }
    }
    // Two writes that differ make local 5 occur; this refusal does not.
    assert_eq!((h.locals[5].en, h.locals[5].cause), (1, 0));
    assert_ne!(h.stages, Stages::new());
}

#[test]
fn records_of_all_editions_get_it() {
    for edition in EDITIONS {
        let mut b = Bench::ready(edition, 1, 0x393D);
        b.configure(325, 65535);
        let lock = Access::Write {
            register: 320,
            value: 0,
        };
        assert_eq!(b.write(1, 1), 0);
        let ticked = b.tick(lock, ALERT0);
        assert_eq!(
            (ticked.answer, ticked.interrupts, ticked.lines),
            (-14, 1, 0)
        );
        assert_eq!((b.read(320), b.read(324)), (1, 1));
        b.configure(325, 65534);
        assert_eq!((b.write(320, 0), b.read(320)), (0, 0));
    }
}

// What it is for

#[test]
fn no_locked_class_waits_for_65536_events() {
    let mut numbers = Numbers(52);
    let (mut h, mut locked, mut refused) = (new(N), 0, 0);
    for _ in 0..20_000 {
        let regwen = REGWENS[numbers.below(4) as usize];
        let (number, value) = match numbers.below(8) {
            0 => (regwen, 0),
            1..=3 => (regwen + 1, 0x393C + numbers.below(2) as u32),
            _ => (regwen + 5, 65534 + numbers.below(2) as u32),
        };
        refused += u32::from(write(&mut h, number, value) == -14);
        for class in &h.classes {
            let silly = class.ctrl % 2 == 1 && class.accum_thresh == 65535;
            assert!(class.regwen == 1 || !silly);
        }
        if h.classes.iter().all(|class| class.regwen == 0) {
            (h, locked) = (new(N), locked + 1);
        }
    }
    assert!(locked > 100 && refused > 100, "{locked}, {refused}");
}

#[test]
fn the_highest_threshold_that_can_be_locked_starts_at_the_65535th_event() {
    let mut h = ready(1, 0x393D);
    configure(&mut h, 1285, 65534);
    assert_eq!(write(&mut h, 1280, 0), 0);
    for _ in 0..65534 {
        event(&mut h);
        pause(&mut h);
    }
    assert_eq!((h.classes[0].state, h.classes[0].accum_cnt), (IDLE, 65534));
    event(&mut h);
    assert_eq!(
        (h.classes[0].state, h.classes[0].accum_cnt),
        (PHASE0, 65535)
    );
}
