//! Dumps that are changed in one thing, each in a way that a reader may take
//! for right.

use super::part::{head, ALERTS, CLASS, CLASSES_FROM, COUNT, REGISTER, STAGE, STATE};
use crate::rng::Rng;
use handler::CLASSES;

/// A change of a dump; false where there is nothing to change.
pub type Twist = fn(&mut Vec<u8>, &mut Rng) -> bool;

/// Every one with its name.
pub const TWISTS: [(&str, Twist); 16] = [
    ("another mark", |dump, rng| {
        dump[rng.index(4)] = rng.pick(&[b't', b'D', b'M', b'P', 0, 255]);
        true
    }),
    ("another N", |dump, rng| {
        dump[ALERTS] = rng.bits() as u8;
        true
    }),
    ("N over 248", |dump, rng| {
        dump[ALERTS] = 249 + rng.below(7) as u8;
        true
    }),
    ("STATE of 2", |dump, rng| {
        let class = class(rng);
        put(dump, class, STATE, 2);
        true
    }),
    ("a count at rest", |dump, rng| {
        let class = class(rng);
        put(dump, class, STATE, rng.pick(&[0, 3]));
        put(dump, class + STATE, COUNT, 1 + rng.below(u32::MAX.into()));
        true
    }),
    ("no count in a phase", |dump, rng| {
        let class = class(rng);
        put(dump, class, STATE, rng.pick(&[1, 4, 5, 6, 7]));
        put(dump, class + STATE, COUNT, 0);
        true
    }),
    ("padding", |dump, rng| {
        let n = usize::from(dump[ALERTS]);
        let free = 8 * head(n) - super::part::bits(n)[2];
        let at = head(n) - 1;
        if free > 0 {
            dump[at] |= 1 << rng.index(free);
        }
        free > 0
    }),
    ("another number of stages", |dump, rng| {
        let (at, number) = number(dump);
        let any = rng.below(700);
        let other = rng.pick(&[number + 1, number.saturating_sub(1), any, 65535]);
        put(dump, 8 * at, 16, other);
        true
    }),
    ("stages swapped", |dump, rng| {
        let (at, number) = number(dump);
        let first = at + 2 + STAGE * rng.index(number.max(1) as usize);
        if first + 2 * STAGE <= dump.len() {
            dump[first..first + 2 * STAGE].rotate_left(STAGE);
        }
        first + 2 * STAGE <= dump.len()
    }),
    ("a stage twice", |dump, rng| {
        let (at, number) = number(dump);
        if number > 0 {
            let from = at + 2 + STAGE * rng.index(number as usize);
            let again: Vec<u8> = dump[from..from + STAGE].to_vec();
            dump.splice(from..from, again);
            put(dump, 8 * at, 16, number + 1);
        }
        number > 0
    }),
    ("another register of a stage", |dump, rng| {
        let (at, number) = number(dump);
        if number > 0 {
            let from = at + 2 + STAGE * rng.index(number as usize);
            let any = rng.below(1400);
            let near = rng.pick(&[4, 5, 6, 24, 31, 39, 512, 759, 768, 1280, 1281, 1284, 1338]);
            put(dump, 8 * from, 16, rng.pick(&[any, near]));
        }
        number > 0
    }),
    ("another value of a stage", |dump, rng| {
        let (at, number) = number(dump);
        if number > 0 {
            let from = at + 2 + STAGE * rng.index(number as usize) + REGISTER;
            let value = rng.pick(&[1, 2, 3, 4, 0x3FFF, 0x4000, 0xFFFF, 0x1_0000, 0xFFFF_FFFF]);
            put(dump, 8 * from, COUNT, value);
        }
        number > 0
    }),
    ("a number with no registers for it", |dump, rng| {
        let (at, number) = number(dump);
        let most = super::made::shadowed(dump[ALERTS].into()).len() as u64;
        put(dump, 8 * at, 16, most + rng.pick(&[0, 1]));
        // Cut, as far as the stages go that are there.
        number < most
    }),
    (
        "the first register too high for those to come",
        |dump, rng| {
            let (at, number) = number(dump);
            let all = super::made::shadowed(dump[ALERTS].into());
            if number < 2 {
                return false;
            }
            let last = all.len() - number as usize;
            let first = rng.pick(&[last, last + 1]);
            put(dump, 8 * (at + 2), 16, all[first].into());
            dump.truncate(at + 2 + rng.pick(&[REGISTER, STAGE - 1, STAGE]));
            true
        },
    ),
    ("the start of a register that is none", |dump, rng| {
        let (at, number) = number(dump);
        if number > 0 {
            dump.truncate(at + 2);
            dump.push(rng.below(8) as u8);
        }
        number > 0
    }),
    ("bytes before it", |dump, rng| {
        let more = 1 + rng.index(3);
        dump.splice(0..0, (0..more).map(|_| rng.bits() as u8));
        true
    }),
];

/// The first bit of a class.
fn class(rng: &mut Rng) -> usize {
    CLASSES_FROM + CLASS * rng.index(CLASSES)
}

/// The byte at which a dump has its number of stages, and that number.
fn number(dump: &[u8]) -> (usize, u64) {
    let at = head(dump[ALERTS].into());
    (at, u64::from(dump[at]) << 8 | u64::from(dump[at + 1]))
}

/// Puts a number into so many bits from one on, the highest first.
fn put(dump: &mut [u8], from: usize, width: usize, value: u64) {
    for at in 0..width {
        let (bit, mask) = (value >> (width - 1 - at) & 1, 0x80 >> ((from + at) % 8));
        let byte = &mut dump[(from + at) / 8];
        *byte = if bit == 1 {
            *byte | mask
        } else {
            *byte & !mask
        };
    }
}
