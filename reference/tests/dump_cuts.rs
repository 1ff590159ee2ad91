//! The dump after a theft: 17 is for exactly the starts of dumps.
//!
//! A start of a dump is one that some byte makes a longer start or a dump. The
//! longest dump has a bound, so answers that keep to this for every next byte,
//! and know the dumps themselves, are right for all bytes.

mod common;

use common::dumps::{bits, is_dump, of, packed, rising, set_stage, state, written};
use common::Numbers;
use reference::class::PHASE0;
use reference::{read_dump, Content, Handler};

/// The answer for these bytes; whatever is refused shows nothing.
fn answer(bytes: &[u8]) -> i64 {
    let (content, answer) = read_dump(bytes);
    assert!(answer == 0 || content == Content::nothing());
    answer
}

/// Checks the answer for these bytes by those for one byte more.
fn check(bytes: &[u8]) -> i64 {
    let now = answer(bytes);
    assert_eq!(now == 0, is_dump(bytes), "{bytes:x?}");
    let mut longer = bytes.to_vec();
    longer.push(0);
    let mut goes_on = false;
    for byte in 0..=255 {
        *longer.last_mut().unwrap() = byte;
        goes_on |= answer(&longer) != -16;
    }
    assert_eq!(now == -17, goes_on, "{bytes:x?}");
    now
}

/// Dumps of all kinds: new, and with few or many stages.
fn dumps() -> Vec<Vec<u8>> {
    let mut numbers = Numbers(81);
    let mut all = vec![written(&of(0)), written(&of(1))];
    for (n, few) in [(0, 9), (1, 9), (2, 20), (3, 30), (5, 30)] {
        all.push(written(&state(&mut numbers, n, few)));
    }
    all
}

#[test]
fn every_cut_of_every_dump() {
    let mut numbers = Numbers(82);
    for n in [0, 1, 2, 3, 64, 65, 247, 248] {
        for few in [1, 2, 9, 100_000] {
            let bytes = written(&state(&mut numbers, n, few));
            for length in 0..bytes.len() {
                assert_eq!(answer(&bytes[..length]), -17);
            }
            assert_eq!(answer(&bytes), 0);
        }
    }
}

#[test]
fn every_flipped_bit_of_some_dumps_at_every_cut() {
    let mut seen = [0; 18];
    for bytes in dumps() {
        for bit in 0..8 * bytes.len() {
            let mut flipped = bytes.clone();
            flipped[bit / 8] ^= 0x80 >> (bit % 8);
            assert_eq!(answer(&flipped) == 0, is_dump(&flipped));
            // All cuts in which the flipped bit is.
            for length in bit / 8 + 1..=bytes.len() {
                seen[-answer(&flipped[..length]) as usize] += 1;
            }
            // With every next byte where the answer may turn.
            let near = [bit / 8 + 1, bit / 8 + 2, bytes.len()];
            for length in near.into_iter().filter(|length| *length <= bytes.len()) {
                check(&flipped[..length]);
            }
        }
    }
    assert!(seen[0] > 100 && seen[16] > 100 && seen[17] > 100);
}

#[test]
fn every_start_of_some_dumps_with_every_next_byte() {
    for bytes in dumps() {
        for length in 0..=bytes.len() {
            check(&bytes[..length]);
        }
    }
}

#[test]
fn any_bytes() {
    let mut numbers = Numbers(83);
    for _ in 0..300 {
        let bytes: Vec<u8> = (0..numbers.below(50))
            .map(|_| numbers.next() as u8)
            .collect();
        check(&bytes);
        // The same after a beginning that is right.
        let mut begun = b"TDMP".to_vec();
        begun.extend(&bytes);
        check(&begun);
    }
}

#[test]
fn the_beginning() {
    assert_eq!(check(b""), -17);
    for length in 1..=4 {
        assert_eq!(check(&b"TDMP"[..length]), -17);
        for at in 0..length {
            let mut wrong = b"TDMP"[..length].to_vec();
            for byte in (0..=255).filter(|byte| *byte != b"TDMP"[at]) {
                wrong[at] = byte;
                assert_eq!(answer(&wrong), -16);
            }
        }
    }
}

/// Every dump of N = 0 whose class k alone is not new and which may have this
/// STATE and count: those of the count itself, and of it with its last bits 0,
/// or 0 but for the last.
fn around(k: usize, count: u32) -> Vec<Vec<u8>> {
    let mut dumps = Vec::new();
    for state in [0, 1, 3, 4, 5, 6, 7] {
        for missing in 0..=32 {
            let kept = (u64::from(count) >> missing << missing) as u32;
            for count in [kept, kept | 1] {
                let mut h = of(0);
                (h.classes[k].state, h.classes[k].esc_cnt) = (state, count);
                if h.valid() {
                    dumps.push(written(&h));
                }
            }
        }
    }
    dumps
}

#[test]
fn a_cut_state_or_count_can_still_become_a_good_one() {
    for k in 0..4 {
        let places = (40 + 51 * k) / 8..=(40 + 51 * k + 35 + 7) / 8;
        for count in [0, 1, 2, 7, 8, 255, 256, 1 << 20, 1 << 27, 1 << 31, u32::MAX] {
            let dumps = around(k, count);
            for state in 0..8 {
                let mut classes = "0".repeat(4 * 51);
                let fields = format!("{state:03b}{count:032b}");
                classes.replace_range(51 * k..51 * k + 35, &fields);
                let bytes = packed(&bits(0, &classes, &"0".repeat(7), &"0".repeat(16), &[]));
                for length in places.clone() {
                    let cut = &bytes[..length];
                    let start = dumps.iter().any(|dump| dump.starts_with(cut));
                    let expected = if start { -17 } else { -16 };
                    assert_eq!(answer(cut), expected, "{k}, {state}, {count}, {length}");
                }
            }
        }
    }
}

#[test]
fn a_state_of_2_is_known_with_its_last_bit() {
    // Class 2's STATE is the one that a byte ends in: two bits, then one.
    let mut h: Handler = of(0);
    (h.classes[2].state, h.classes[2].esc_cnt) = (3, 0);
    let bytes = written(&h);
    let first = (40 + 2 * 51 + 2) / 8;
    assert_eq!((40 + 2 * 51 + 2) % 8, 0);
    assert_eq!(check(&bytes[..first]), -17);
    let mut two = bytes[..=first].to_vec();
    two[first] &= 0x7F;
    assert_eq!(check(&two), -16);
    // Those that begin with 10 are Phases 0 and 1, which need a count.
    (h.classes[2].state, h.classes[2].esc_cnt) = (PHASE0, 1);
    assert_eq!(check(&written(&h)[..first]), -17);
}

#[test]
fn a_staged_value_is_refused_as_soon_as_it_is_too_large() {
    for n in [0, 1] {
        for (register, largest) in rising(n) {
            let mut h = of(n);
            set_stage(&mut h, register, 0);
            let bytes = written(&h);
            let at = bytes.len() - 4;
            let mut values: Vec<u32> = (0..32).map(|bit| 1 << bit).collect();
            values.extend([0, largest, largest.wrapping_add(1), u32::MAX]);
            for value in values {
                let mut changed = bytes.clone();
                changed[at..].copy_from_slice(&value.to_be_bytes());
                for there in 0..4 {
                    // The least value that begins with these bytes.
                    let missing = 32 - 8 * there;
                    let least = (u64::from(value) >> missing << missing) as u32;
                    let expected = if least <= largest { -17 } else { -16 };
                    let length = at + there as usize;
                    assert_eq!(answer(&changed[..length]), expected);
                }
                let expected = if value <= largest { 0 } else { -16 };
                assert_eq!(check(&changed), expected, "{register}, {value}");
            }
        }
    }
}
