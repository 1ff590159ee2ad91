//! Entries that no well-formed record holds.

use super::row::Row;
use crate::record::largest;
use crate::rng::Rng;
use handler::Edition;

/// What a list has that no well-formed record holds.
#[derive(Clone, Copy, Debug, PartialEq, Eq)]
pub enum Way {
    /// Nothing.
    Good,
    /// A kind over 2.
    Kind,
    /// Kind 0 with a register.
    NoneRegister,
    /// Kind 0 with a value.
    NoneValue,
    /// A read with a value.
    ReadValue,
    /// A register over eleven bits.
    Register,
    /// Two or three of these.
    Several,
    /// Slices of unequal lengths.
    Unequal,
}

/// Every way with its name and how often it comes.
pub const WAYS: [(Way, &str, u64); 8] = [
    (Way::Good, "good", 8),
    (Way::Kind, "kind", 1),
    (Way::NoneRegister, "none with register", 1),
    (Way::NoneValue, "none with value", 1),
    (Way::ReadValue, "read with value", 1),
    (Way::Register, "register", 1),
    (Way::Several, "several", 1),
    (Way::Unequal, "unequal slices", 2),
];

/// The ways that spoil one entry.
const SINGLE: [Way; 5] = [
    Way::Kind,
    Way::NoneRegister,
    Way::NoneValue,
    Way::ReadValue,
    Way::Register,
];

/// Spoils as many entries as the way says.
pub fn spoil(way: Way, rng: &mut Rng, rows: &mut Vec<Row>) {
    let bad = match way {
        Way::Good | Way::Unequal => 0,
        Way::Several => 2 + rng.below(2),
        _ => 1,
    };
    for _ in 0..bad {
        spoil_one(way, rng, rows);
    }
}

/// Spoils one entry: the first, the last or any.
fn spoil_one(way: Way, rng: &mut Rng, rows: &mut Vec<Row>) {
    if rows.is_empty() {
        rows.push(Row::good(rng));
    }
    let last = rows.len() - 1;
    let any = rng.index(rows.len());
    let at = rng.pick(&[0, last, any, any]);
    let way = if way == Way::Several {
        rng.pick(&SINGLE)
    } else {
        way
    };
    spoil_row(way, rng, &mut rows[at]);
}

/// Makes an entry one that no record holds.
fn spoil_row(way: Way, rng: &mut Rng, row: &mut Row) {
    let most = largest(Edition::NEWEST);
    let (bit, any) = (1 << rng.below(32), rng.bits() as u32 | 1);
    let value = rng.pick(&[1, u32::MAX, bit, any]);
    match way {
        Way::Kind => {
            let any = 3 + rng.below(253) as u8;
            // Some have the low bits of a good kind.
            row.kind = rng.pick(&[3, 4, 128 | row.kind, 255, any]);
        }
        Way::NoneRegister => {
            let bit = 1 << rng.below(16);
            (row.kind, row.value) = (0, 0);
            row.register = rng.pick(&[1, bit, bit, most, most + 1, u16::MAX]);
        }
        Way::NoneValue => (row.kind, row.register, row.value) = (0, 0, value),
        Way::ReadValue => (row.kind, row.value) = (1, value),
        Way::Register => {
            let bits = most.count_ones();
            let over = 1 << (bits + rng.below(u64::from(16 - bits)) as u32);
            let near = row.register | over;
            row.register = rng.pick(&[most + 1, u16::MAX, over, near]);
            if row.kind == 0 {
                row.kind = 1;
            }
        }
        Way::Good | Way::Several | Way::Unequal => {}
    }
}
