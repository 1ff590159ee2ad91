//! Shadow writes: what is staged, what commits, what drops a stage and what a
//! stage does not do.

mod common;

use common::records::{record, Bench, EDITIONS};
use common::shadowed::{drop_all, held, open, shadowed, stage, stage_all};
use common::{configure, idle, new, read, ready, sampled, tick, write, Numbers, ALERT0, REST};
use reference::class::IDLE;
use reference::{batch, Access, Edition};

/// The handler of most tests: two alerts, so that both have a neighbour.
const N: u64 = 2;

// Two equal writes

#[test]
fn the_first_is_staged_and_the_second_commits() {
    for n in [1, 64, 65, 248] {
        for (number, largest) in shadowed(n) {
            for value in [0, 1, largest] {
                let before = new(n);
                let mut h = before.clone();
                assert_eq!(write(&mut h, number, value), 0);
                assert_eq!(stage(&h, number), u64::from(value) + 1);
                assert_eq!(open(&h), 1);
                assert_eq!(held(&h, number), held(&before, number));
                drop_all(&mut h);
                assert_eq!(h, before, "{number}: staged, but more was changed");

                configure(&mut h, number, value);
                assert_eq!((held(&h, number), open(&h)), (value, 0), "{number}");
                configure(&mut h, number, held(&before, number));
                assert_eq!(h, before, "{number}: committed elsewhere too");
            }
        }
    }
}

#[test]
fn no_other_register_is_staged() {
    let rows = shadowed(N);
    for number in 0..2048 {
        if rows.iter().any(|row| row.0 == number) {
            continue;
        }
        for value in [0, 1] {
            let mut h = new(N);
            write(&mut h, number, value);
            assert_eq!(open(&h), 0, "{number}");
        }
    }
    let mut h = ready(N, 0x393C);
    tick(&mut h, Access::None, ALERT0);
    // Each of these does its work with the first write.
    for (number, value, after) in [(1, 9, 9), (18, 0, 0), (257, 0, 0), (1024, 1, 0)] {
        assert_eq!(write(&mut h, number, value), 0);
        assert_eq!(read(&mut h, number), after, "{number}");
    }
    h.classes[1].accum_cnt = 5;
    assert_eq!((write(&mut h, 1299, 1), h.classes[1].accum_cnt), (0, 0));
    assert_eq!((write(&mut h, 2, 3), h.intr_state), (0, 3));
    assert_eq!((write(&mut h, 0, 1), h.intr_state), (0, 2));
    for number in [1280, 1298] {
        assert_eq!(write(&mut h, number, 0), 0);
        assert_eq!(read(&mut h, number), 0);
    }
}

#[test]
fn a_value_already_held_is_staged_like_any_other() {
    let mut h = new(N);
    assert_eq!(write(&mut h, 1281, 0x393C), 0);
    assert_eq!(stage(&h, 1281), 0x393D);
    assert_eq!(write(&mut h, 1281, 0x393D), -12);
    assert_eq!(write(&mut h, 512, 0), 0);
    assert_eq!(stage(&h, 512), 1);
    assert_eq!(write(&mut h, 512, 0), 0);
    assert_eq!(h, new(N));
}

#[test]
fn each_register_has_its_own_stage() {
    let mut h = new(248);
    let mut rows = stage_all(&mut h);
    for ((number, _), value) in &rows {
        assert_eq!(stage(&h, *number), u64::from(*value) + 1, "{number}");
    }
    rows.reverse();
    for (left, ((number, _), value)) in rows.iter().enumerate() {
        assert_eq!(open(&h), rows.len() - left);
        assert_eq!(write(&mut h, *number, *value), 0);
    }
    for ((number, _), value) in rows {
        assert_eq!(held(&h, number), value, "{number}");
    }
}

#[test]
fn the_largest_staged_values_are_sound() {
    let mut h = new(N);
    for (number, largest) in shadowed(N) {
        assert_eq!(write(&mut h, number, largest), 0);
    }
    assert!(h.valid());
    assert_eq!(h.timer.stage, 0x1_0000);
    let class = h.stages.classes[3];
    assert_eq!((class.ctrl, class.thresh), (0x4000, 0x1_0000));
    assert_eq!((class.timeout, class.lengths), (1 << 32, [1 << 32; 4]));
    assert_eq!((h.stages.alerts.en[1], h.stages.alerts.class[1]), (2, 4));
    assert_eq!((h.stages.locals.en[6], h.stages.locals.class[6]), (2, 4));
    for (number, largest) in shadowed(N) {
        assert_eq!(write(&mut h, number, largest), 0);
        assert_eq!(held(&h, number), largest);
    }
}

// How long a stage stays

#[test]
fn a_stage_waits_over_ticks_and_other_accesses() {
    let mut numbers = Numbers(31);
    let mut h = ready(248, 0x393D);
    let rows = stage_all(&mut h);
    let stages = (h.stages, h.timer.stage);
    for _ in 0..3000 {
        let number = numbers.below(2048) as u16;
        if rows.iter().any(|(row, _)| row.0 == number) {
            continue;
        }
        let access = match numbers.below(4) {
            0 => Access::Malformed,
            1 => Access::Read { register: number },
            // Also the locks of all the registers.
            _ => Access::Write {
                register: number,
                value: numbers.below(3) as u32,
            },
        };
        tick(&mut h, access, numbers.sample());
        assert_eq!((h.stages, h.timer.stage), stages);
    }
    let mut out = [0; 3];
    assert_eq!(batch(&mut h, Edition::Third, &[0; 225], &mut out), 0);
    // Refused batches and a state that breaks the rule keep them too.
    assert_eq!(batch(&mut h, Edition::First, &[0; 24], &mut out), -7);
    assert_eq!(batch(&mut h, Edition::Third, &[0; 76], &mut out), -8);
    h.intr_enable = 16;
    assert_eq!(read(&mut h, 1281), -7);
    assert_eq!(write(&mut h, 1281, 0), -7);
    assert_eq!((h.stages, h.timer.stage), stages);
}

#[test]
fn a_read_drops_the_stage_of_its_register() {
    for ((number, _), _) in stage_all(&mut new(N)) {
        let mut h = new(N);
        let rows = stage_all(&mut h);
        let before = held(&new(N), number);
        // The value that is held is read, and only this stage goes.
        assert_eq!(read(&mut h, number), i64::from(before), "{number}");
        assert_eq!((stage(&h, number), open(&h)), (0, rows.len() - 1));
        for ((other, _), value) in rows {
            assert_eq!(write(&mut h, other, value), 0);
            let expected = if other == number { before } else { value };
            assert_eq!(held(&h, other), expected);
        }
        // What followed the read was a first write.
        assert_eq!(open(&h), 1);
        assert_ne!(stage(&h, number), 0);
    }
}

#[test]
fn a_differing_write_drops_the_stage_and_changes_nothing() {
    for (number, largest) in shadowed(N) {
        for (first, other) in [(0, 1), (1, 0), (largest, largest - 1), (0, largest)] {
            let mut h = new(N);
            assert_eq!(write(&mut h, number, first), 0);
            assert_eq!(write(&mut h, number, other), -12, "{number}");
            assert_eq!(h, new(N), "{number}");
            // The differing value is not staged, so this is a first write.
            assert_eq!(write(&mut h, number, other), 0);
            assert_eq!(stage(&h, number), u64::from(other) + 1);
            assert_eq!(write(&mut h, number, first), -12);
            assert_eq!(h, new(N), "{number}");
            configure(&mut h, number, first);
            assert_eq!((held(&h, number), open(&h)), (first, 0));
        }
    }
}

#[test]
fn a_differing_write_drops_one_stage_only() {
    let mut h = new(N);
    let rows = stage_all(&mut h);
    let mut left = rows.len();
    for ((number, _), value) in rows {
        let mut expected = h.clone();
        assert_eq!(write(&mut h, number, value ^ 1), -12);
        assert_eq!(read(&mut expected, number), i64::from(held(&h, number)));
        assert_eq!(h, expected);
        left -= 1;
        assert_eq!(open(&h), left);
    }
}

// What a stage does not do

#[test]
fn a_staged_value_acts_on_nothing() {
    let mut numbers = Numbers(32);
    for n in [1, 64, 248] {
        let mut plain = ready(n, 0x393F);
        configure(&mut plain, 26, 1);
        configure(&mut plain, 1286, 3);
        let mut staged = plain.clone();
        stage_all(&mut staged);
        // Pings that fail after two ticks.
        for h in [&mut plain, &mut staged] {
            h.alerts[0].regwen = 0;
            (h.timer.enable, h.timer.timeout) = (1, 2);
        }
        let stages = (staged.stages, staged.timer.stage);
        for _ in 0..2000 {
            // Interrupts, causes, clears, and what is read only.
            let register = [0, 1, 2, 42, 1024, 1283, 1284, 1292][numbers.below(8) as usize];
            let access = match numbers.below(3) {
                0 => Access::None,
                1 => Access::Read { register },
                _ => Access::Write { register, value: 1 },
            };
            let positive = numbers.wires();
            let mut negative = positive.map(|word| !word);
            negative[0] ^= u64::from(numbers.below(20) == 0) << 63;
            let mut sample = sampled(positive, negative);
            sample.word = numbers.below(4) as u32;
            sample = numbers.received(sample);
            assert_eq!(
                tick(&mut plain, access, sample),
                tick(&mut staged, access, sample)
            );
            assert_eq!((staged.stages, staged.timer.stage), stages);
            let mut bare = staged.clone();
            drop_all(&mut bare);
            assert_eq!(bare, plain);
        }
    }
}

#[test]
fn a_trace_that_writes_once_no_longer_configures() {
    for edition in EDITIONS {
        let mut b = Bench::new(edition, 1);
        let settings = [(128, 1), (192, 1), (321, 0x393D), (337, 0x393D), (327, 9)];
        for (register, value) in settings {
            assert_eq!(b.write(register, value), 0);
        }
        assert_eq!(b.write(1, 15), 0);
        let ticked = b.event();
        assert_eq!((ticked.interrupts, ticked.lines), (0, 0));
        assert_eq!((b.stands(), b.read(256)), ((IDLE, 0), 0));
        for (register, _) in settings {
            let at_reset = if register % 16 == 1 { 0x393C } else { 0 };
            assert_eq!(b.read(register), at_reset, "{register}");
        }
    }
}

#[test]
fn records_of_all_editions_stage() {
    let write = |register, value| Access::Write { register, value };
    for (edition, en) in EDITIONS.into_iter().zip([191, 575, 575, 575]) {
        let mut h = new(64);
        // Staged, committed, staged, dropped, staged.
        let values = [1, 1, 0, 1, 0];
        let bytes: Vec<u8> = values
            .iter()
            .flat_map(|value| record(edition, write(en, *value), REST))
            .collect();
        let mut out = [7; 6];
        assert_eq!(batch(&mut h, edition, &bytes, &mut out), 0);
        assert_eq!(out, [0, 0, 0, 0x00C0_0000_0000_0000, 0, 7]);
        assert_eq!((h.alerts[63].en, h.stages.alerts.en[63]), (1, 1));
        // The stage is there for the next call.
        idle(&mut h);
        assert_eq!(common::write(&mut h, 575, 0), 0);
        assert_eq!((h.alerts[63].en, open(&h)), (0, 0));
    }
}
