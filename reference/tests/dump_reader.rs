//! The dump after a theft: a dump read back shows what the state held, and
//! contents that no accepted state has are refused.

mod common;

use common::dumps::{bits, is_dump, of, packed, rising, state, written};
use common::shadowed::stage;
use common::{Numbers, COUNTS};
use reference::content::{ClassContent, SourceContent, StageContent};
use reference::{read_dump, Content, Handler, Source};

/// The answer for these bytes; whatever is refused shows nothing.
fn answer(bytes: &[u8]) -> i64 {
    let (content, answer) = read_dump(bytes);
    if answer != 0 {
        assert_eq!(content, Content::nothing());
    }
    answer
}

/// What the dump of a state is to show.
fn held(h: &Handler) -> Content {
    let source = |source: &Source| SourceContent {
        cause: source.cause == 1,
        locked: source.regwen == 0,
    };
    let mut content = Content::nothing();
    content.n = h.n as u8;
    content.classes = h.classes.map(|class| ClassContent {
        state: class.state,
        count: class.esc_cnt,
        accumulator: class.accum_cnt,
        locked: class.regwen == 0,
        clr_locked: class.clr_regwen == 0,
    });
    content.timer_locked = h.timer.regwen == 0;
    content.locals = h.locals.map(|local| source(&local));
    for (shown, alert) in content.alerts.iter_mut().zip(&h.alerts[..h.n as usize]) {
        *shown = source(alert);
    }
    for (register, _) in rising(h.n) {
        if let Some(value) = stage(h, register).checked_sub(1) {
            let value = value as u32;
            content.stages.push(StageContent { register, value });
        }
    }
    content
}

#[test]
fn a_dump_shows_what_the_state_held() {
    let mut numbers = Numbers(71);
    for n in COUNTS.into_iter().chain([0, 2, 3, 4, 5, 58]) {
        for few in [1, 2, 9, 100_000] {
            let h = state(&mut numbers, n, few);
            let (content, answer) = read_dump(&written(&h));
            assert_eq!(answer, 0);
            assert_eq!(content, held(&h));
            assert_eq!(content, Content::of(&h));
        }
    }
}

#[test]
fn a_new_handler_of_no_alerts_shows_zeros_too() {
    // The answer tells it from a refused reading.
    assert_eq!(read_dump(&written(&of(0))), (Content::nothing(), 0));
    assert_eq!(read_dump(&[]), (Content::nothing(), -17));
    assert_eq!(read_dump(b"x"), (Content::nothing(), -16));
}

#[test]
fn bytes_after_the_end_are_refused() {
    let mut numbers = Numbers(72);
    for n in [0, 1, 2, 3, 100, 248] {
        for few in [2, 100_000] {
            let mut bytes = written(&state(&mut numbers, n, few));
            for more in [0, 1, b'T', 255] {
                bytes.push(more);
                assert_eq!(answer(&bytes), -16);
            }
        }
    }
}

/// The bits of a handler of `n` alerts that is new but for class k's STATE and
/// count, and the stages.
fn shown(n: u64, k: usize, state: u32, count: u32, stages: &[(u16, u32)]) -> Vec<u8> {
    let mut classes = "0".repeat(4 * 51);
    let fields = format!("{state:03b}{count:032b}");
    classes.replace_range(51 * k..51 * k + 35, &fields);
    let causes = "0".repeat(7 + n as usize);
    let locks = "0".repeat(16 + n as usize);
    packed(&bits(n, &classes, &causes, &locks, stages))
}

#[test]
fn states_and_counts() {
    for k in 0..4 {
        for state in 0..8 {
            for count in [0, 1, 2, 1 << 16, 1 << 31, u32::MAX] {
                let good = match state {
                    0 | 3 => count == 0,
                    2 => false,
                    _ => count != 0,
                };
                let bytes = shown(1, k, state, count, &[]);
                assert_eq!(answer(&bytes), if good { 0 } else { -16 });
                assert_eq!(is_dump(&bytes), good);
            }
        }
    }
}

#[test]
fn more_than_248_alerts() {
    for n in 0..=255 {
        let bytes = shown(n, 0, 0, 0, &[]);
        assert_eq!(answer(&bytes), if n > 248 { -16 } else { 0 }, "{n}");
        // Refused as soon as the number is there.
        assert_eq!(answer(&bytes[..5]), if n > 248 { -16 } else { -17 });
    }
}

#[test]
fn every_register_number_and_the_ends_of_its_values() {
    for n in [0, 1, 248] {
        let rows = rising(n);
        for register in 0..=u16::MAX {
            let row = rows.iter().find(|row| row.0 == register);
            for value in [0, 1, 2, 3, 4, 0x3FFF, 0x4000, 0xFFFF, 0x1_0000, u32::MAX] {
                let good = row.map_or(false, |row| value <= row.1);
                let bytes = shown(n, 0, 0, 0, &[(register, value)]);
                assert_eq!(answer(&bytes), if good { 0 } else { -16 }, "{register}");
                if row.is_none() {
                    break;
                }
            }
        }
    }
}

#[test]
fn numbers_must_rise() {
    let rows = rising(1);
    for (first, _) in &rows {
        for (second, _) in &rows {
            let bytes = shown(1, 0, 0, 0, &[(*first, 0), (*second, 0)]);
            let good = first < second;
            assert_eq!(answer(&bytes), if good { 0 } else { -16 });
            assert_eq!(is_dump(&bytes), good);
        }
    }
}

#[test]
fn zeros_to_a_full_byte() {
    for n in 0..=20 {
        let bytes = shown(n, 0, 0, 0, &[]);
        // 7, 5, 3 or 1 of them, in the byte before the number of stages.
        let zeros = 8 - (235 + 2 * n) % 8;
        let last = bytes.len() - 3;
        for value in 0..=255u8 {
            let mut changed = bytes.clone();
            changed[last] = value;
            let good = u64::from(value.trailing_zeros()) >= zeros;
            assert_eq!(answer(&changed), if good { 0 } else { -16 });
            // Refused as soon as they are there.
            let cut = answer(&changed[..last + 1]);
            assert_eq!(cut, if good { -17 } else { -16 });
        }
    }
}

#[test]
fn every_number_of_stages() {
    for n in [0, 106, 107, 248] {
        let most = 43 + 2 * n;
        let bytes = shown(n, 0, 0, 0, &[]);
        let (number, mut cut) = (bytes.len() - 2, bytes);
        for high in 0..=255 {
            cut[number] = high;
            let possible = u64::from(high) * 256 <= most;
            let expected = if possible { -17 } else { -16 };
            assert_eq!(answer(&cut[..=number]), expected, "{n}, {high}");
            for low in 0..=255 {
                cut[number + 1] = low;
                let expected = match u64::from(high) * 256 + u64::from(low) {
                    0 => 0,
                    stages if stages <= most => -17,
                    _ => -16,
                };
                assert_eq!(answer(&cut), expected, "{n}, {high}, {low}");
            }
        }
    }
}
