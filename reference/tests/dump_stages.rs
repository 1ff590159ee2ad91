//! The dump after a theft: the registers of a cut list of stages, against all
//! lists that there are. A list that was begun must have room for the rest.

mod common;

use common::dumps::{of, rising, written};
use reference::read_dump;
use std::collections::HashSet;

/// The bytes before the stages of a new handler of `n` alerts.
fn start(n: u64) -> Vec<u8> {
    let bytes = written(&of(n));
    bytes[..bytes.len() - 2].to_vec()
}

/// All choices of `many` of these registers, each rising.
fn choices(registers: &[u16], many: usize) -> Vec<Vec<u16>> {
    if many == 0 {
        return vec![Vec::new()];
    }
    let mut all = Vec::new();
    for (at, first) in registers.iter().enumerate() {
        for mut rest in choices(&registers[at + 1..], many - 1) {
            rest.insert(0, *first);
            all.push(rest);
        }
    }
    all
}

/// The same, where only `without` of them are left out.
fn all_but(registers: &[u16], without: usize) -> Vec<Vec<u16>> {
    let left_out = choices(registers, without);
    let rest = left_out.iter().map(|left_out| {
        let kept = registers.iter().filter(|kept| !left_out.contains(kept));
        kept.copied().collect()
    });
    rest.collect()
}

/// A list of stages with all values 0.
fn list(start: &[u8], registers: &[u16]) -> Vec<u8> {
    let mut bytes = start.to_vec();
    bytes.extend((registers.len() as u16).to_be_bytes());
    for register in registers {
        bytes.extend(register.to_be_bytes());
        bytes.extend([0; 4]);
    }
    bytes
}

/// Checks every start of these lists, the only ones of their number, with every
/// next byte in a register's place.
fn check(n: u64, lists: &[Vec<u16>]) {
    let start = start(n);
    let first = start.len() + 2;
    let mut starts = HashSet::new();
    for registers in lists {
        let bytes = list(&start, registers);
        for length in first..=bytes.len() {
            starts.insert(bytes[..length].to_vec());
        }
    }
    let whole = first + 6 * lists[0].len();
    for bytes in starts.iter().filter(|bytes| bytes.len() < whole) {
        assert_eq!(read_dump(bytes).1, -17);
        // Two bytes of register, four of value.
        if (bytes.len() - first) % 6 > 1 {
            continue;
        }
        let mut longer = bytes.clone();
        longer.push(0);
        for byte in 0..=255 {
            *longer.last_mut().unwrap() = byte;
            let expected = if starts.contains(&longer) { -17 } else { -16 };
            assert_eq!(read_dump(&longer).1, expected, "{:x?}", &longer[first..]);
        }
    }
    let dumps = starts.iter().filter(|bytes| bytes.len() == whole);
    assert_eq!(dumps.clone().count(), lists.len());
    assert!(dumps.clone().all(|bytes| read_dump(bytes).1 == 0));
}

fn registers(n: u64) -> Vec<u16> {
    rising(n).into_iter().map(|row| row.0).collect()
}

#[test]
fn one_two_or_three_stages() {
    for (n, most) in [(0, 3), (1, 2)] {
        for many in 1..=most {
            check(n, &choices(&registers(n), many));
        }
    }
}

#[test]
fn all_registers_but_none_or_one() {
    for n in [0, 1] {
        for without in 0..=1 {
            check(n, &all_but(&registers(n), without));
        }
    }
}

#[test]
fn one_stage_of_248_alerts() {
    check(248, &choices(&registers(248), 1));
    check(248, &all_but(&registers(248), 0));
}

#[test]
fn a_register_too_far_on_leaves_no_room() {
    // With two stages the last register can't be the first of them, and the
    // last but one must be followed by the last.
    let start = start(0);
    let last = list(&start, &[1338, 1338]);
    let at = start.len() + 2;
    assert_eq!(read_dump(&last[..at + 1]).1, -17);
    assert_eq!(read_dump(&last[..at + 2]).1, -16);
    let mut one_before = list(&start, &[1337, 1338]);
    assert_eq!(read_dump(&one_before[..at + 2]).1, -17);
    assert_eq!(read_dump(&one_before).1, 0);
    one_before.truncate(at + 7);
    assert_eq!(read_dump(&one_before).1, -17);
    one_before[at + 6] = 4;
    assert_eq!(read_dump(&one_before).1, -16);
}
