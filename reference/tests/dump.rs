//! The dump after a theft: what the writer writes, and where it refuses.

mod common;

use common::dumps::{causes, expected, locks, of, packed, rising, set_stage, state, written};
use common::{configure, event, new, ready, write, Numbers, COUNTS};
use reference::class::PHASE3;
use reference::{dump, Handler};

/// A buffer with no two neighbours alike.
fn buffer(length: usize) -> Vec<u8> {
    (0..length).map(|at| (at * 37 + 11) as u8).collect()
}

#[test]
fn a_new_handler() {
    for n in [0, 1, 2, 3, 7, 64, 248] {
        // 8 + 4 * 51 + 7 + N + 16 + N bits, the zeros, and no stage.
        let rest = (235 + 2 * n as usize + 7) / 8 + 2;
        let mut bytes = b"TDMP".to_vec();
        bytes.push(n as u8);
        bytes.resize(4 + rest, 0);
        assert_eq!(written(&of(n)), bytes);
    }
    assert_eq!(written(&of(0)).len(), 36);
    assert_eq!(written(&of(248)).len(), 98);
}

#[test]
fn one_field_after_the_other() {
    let mut h = new(2);
    let class = &mut h.classes[1];
    (class.state, class.esc_cnt, class.accum_cnt) = (PHASE3, 0x8000_0001, 0x8001);
    h.locals[6].cause = 1;
    h.alerts[0].cause = 1;
    h.timer.regwen = 0;
    h.alerts[1].regwen = 0;
    h.classes[2].clr_regwen = 0;
    set_stage(&mut h, 1338, u32::MAX);
    set_stage(&mut h, 5, 7);
    let bits = [
        "01010100010001000100110101010000",
        "00000010",
        &"0".repeat(51),
        "111",
        "10000000000000000000000000000001",
        "1000000000000001",
        &"0".repeat(2 * 51),
        "0000001",
        "10",
        "1",
        "0000000",
        "01",
        "00000100",
        "0",
        "0000000000000010",
        "0000000000000101",
        "00000000000000000000000000000111",
        "0000010100111010",
        &"1".repeat(32),
    ];
    assert_eq!(written(&h), packed(&bits.concat()));
    assert_eq!(expected(&h), bits.concat());
}

#[test]
fn each_cause_and_each_lock_has_its_bit() {
    for n in [0, 1, 9, 248] {
        let first = 32 + 8 + 4 * 51;
        for (at, register) in causes(n).into_iter().chain(locks(n)).enumerate() {
            let mut h = of(n);
            match usize::from(register) {
                4 => h.timer.regwen = 0,
                j @ 16..=22 => h.locals[j - 16].regwen = 0,
                j @ 40..=46 => h.locals[j - 40].cause = 1,
                i @ 256..=503 => h.alerts[i - 256].regwen = 0,
                i @ 1024..=1271 => h.alerts[i - 1024].cause = 1,
                k if k % 16 == 0 => h.classes[(k - 1280) / 16].regwen = 0,
                k => h.classes[(k - 1280) / 16].clr_regwen = 0,
            }
            let mut bytes = written(&of(n));
            bytes[(first + at) / 8] |= 0x80 >> ((first + at) % 8);
            assert_eq!(written(&h), bytes, "{register}");
        }
    }
}

#[test]
fn each_stage_alone_and_all_at_once() {
    for n in [0, 1, 64, 248] {
        let empty = written(&of(n));
        let start = &empty[..empty.len() - 2];
        let mut all = of(n);
        let mut bytes = start.to_vec();
        bytes.extend((rising(n).len() as u16).to_be_bytes());
        for (register, largest) in rising(n) {
            for value in [0, 1, largest] {
                let mut h = of(n);
                set_stage(&mut h, register, value);
                let mut one = start.to_vec();
                one.extend([0, 1]);
                one.extend(register.to_be_bytes());
                one.extend(value.to_be_bytes());
                assert_eq!(written(&h), one, "{register}, {value}");
            }
            set_stage(&mut all, register, largest);
            bytes.extend(register.to_be_bytes());
            bytes.extend(largest.to_be_bytes());
        }
        assert_eq!(written(&all), bytes);
        assert_eq!(rising(n).len(), 43 + 2 * n as usize);
    }
}

#[test]
fn the_longest_dump() {
    let mut h = new(248);
    for (register, largest) in rising(248) {
        set_stage(&mut h, register, largest);
    }
    assert_eq!(written(&h).len(), 98 + 6 * 539);
}

#[test]
fn any_state_as_its_registers_read() {
    let mut numbers = Numbers(61);
    for n in COUNTS.into_iter().chain([0, 2, 3, 4, 5, 58]) {
        for few in [1, 2, 9, 100_000] {
            let h = state(&mut numbers, n, few);
            assert_eq!(written(&h), packed(&expected(&h)));
        }
    }
}

#[test]
fn states_that_calls_produce() {
    let mut h = ready(3, 0x393F);
    configure(&mut h, 1285, 1);
    configure(&mut h, 1287, 9);
    assert_eq!(write(&mut h, 4, 0), 0);
    assert_eq!(write(&mut h, 770, 3), 0);
    event(&mut h);
    assert_eq!(written(&h), packed(&expected(&h)));
    common::pause(&mut h);
    event(&mut h);
    assert_eq!(h.classes[0].clr_regwen, 0);
    assert_eq!(written(&h), packed(&expected(&h)));
}

#[test]
fn what_is_not_shown_makes_no_difference() {
    let mut numbers = Numbers(62);
    let h = state(&mut numbers, 5, 3);
    let mut other = h.clone();
    (other.intr_state, other.intr_enable, other.timer.enable) = (15, 15, 1);
    other.classes[0].ctrl ^= 0x3FFF;
    other.locals[0].class ^= 3;
    other.receivers[0].ping = true;
    other.senders[0].on = true;
    // Alerts at 5 and above are none, whatever is stored there.
    other.alerts[5].cause = 200;
    other.alerts[247].regwen = 3;
    other.stages.alerts.en[5] = 2;
    other.stages.alerts.class[200] = 255;
    assert!(other.valid());
    assert_eq!(written(&other), written(&h));
}

/// Checks that a buffer of any of these lengths keeps its bytes.
fn refused(h: &Handler, lengths: impl Iterator<Item = usize>, answer: i64) {
    for length in lengths {
        let mut out = buffer(length);
        assert_eq!(dump(h, &mut out), answer);
        assert_eq!(out, buffer(length));
    }
}

#[test]
fn a_broken_state_is_refused_first() {
    let change: [fn(&mut Handler); 9] = [
        |h| h.n = 249,
        |h| h.n = u64::MAX,
        |h| h.classes[0].state = 2,
        |h| h.classes[1].state = 4,
        |h| h.classes[2].esc_cnt = 1,
        |h| h.alerts[0].cause = 2,
        |h| h.timer.stage = 0x1_0001,
        |h| h.stages.alerts.class[0] = 5,
        |h| h.stages.classes[3].ctrl = 0x4001,
    ];
    for change in change {
        let mut h = new(1);
        change(&mut h);
        refused(&h, [0, 35, 36, 37, 4000].into_iter(), -7);
    }
}

#[test]
fn a_short_buffer_is_refused_and_a_longer_one_keeps_its_end() {
    let mut numbers = Numbers(63);
    for few in [2, 100_000] {
        let h = state(&mut numbers, 3, few);
        let bytes = written(&h);
        refused(&h, 0..bytes.len(), -11);
        for length in bytes.len()..bytes.len() + 9 {
            let mut out = buffer(length);
            assert_eq!(dump(&h, &mut out), bytes.len() as i64);
            assert_eq!(out[..bytes.len()], bytes);
            assert_eq!(out[bytes.len()..], buffer(length)[bytes.len()..]);
        }
    }
}
