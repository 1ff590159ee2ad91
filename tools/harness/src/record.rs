//! Packs trace records of every edition. Written apart from the reference and
//! from the proved writer, so that a slip in one of them is not repeated here.

use handler::{Edition, LinePairs, ALERTS, WORDS};

/// Kind bits of a record without access.
pub const NONE: u8 = 0;
/// Kind bits of a read.
pub const READ: u8 = 1;
/// Kind bits of a write.
pub const WRITE: u8 = 2;
/// Kind bits that no record may have.
pub const KIND3: u8 = 3;

/// The bytes of a record that the trace writer writes.
pub const WRITTEN_BYTES: usize = Edition::NEWEST.bytes();

/// The positive or the negative wires of a sample: alert i at bit 63 - i % 64
/// of word i / 64.
pub type Side = [u64; WORDS];

/// The largest register number that an edition's records hold.
pub const fn largest(edition: Edition) -> u16 {
    (1 << edition.register_bits()) - 1
}

/// The wires alone, with the places past the last one at 0.
pub fn wires_of(mut side: Side) -> Side {
    side[WORDS - 1] &= u64::MAX << (64 * WORDS - ALERTS);
    side
}

/// What a record has behind its wires, where its edition has that.
#[derive(Clone, Copy, Debug, Default, PartialEq, Eq)]
pub struct Tail {
    /// The entropy word, 32 bits.
    pub word: u32,
    /// The last byte: 4 bits that are zero in a good record, then the answers,
    /// line 0 first; in the newest edition the receive pairs, line 0 and the
    /// positive wire first.
    pub last: u8,
}

impl Tail {
    /// The word, and the answers with line 0 at the lowest bit; bits from 4 up
    /// are left out.
    pub fn new(word: u32, answers: u32) -> Tail {
        let last = (0..4).map(|e| (answers >> e & 1) << (3 - e)).sum::<u32>();
        Tail {
            word,
            last: last as u8,
        }
    }

    /// The word, and receive pairs; their bits from 4 up are left out.
    pub fn wired(word: u32, receive: LinePairs) -> Tail {
        let wire = |wires: u32, e: u32| wires >> e & 1;
        let pair = |e| wire(receive.pos, e) << 1 | wire(receive.neg, e);
        let last = (0..4).fold(0, |byte, e| byte << 2 | pair(e));
        Tail {
            word,
            last: last as u8,
        }
    }

    fn bytes(self) -> [u8; 5] {
        let [a, b, c, d] = self.word.to_be_bytes();
        [a, b, c, d, self.last]
    }
}

/// The first 32 bits and the value of a record.
#[derive(Clone, Copy, Debug, PartialEq, Eq)]
pub struct Head {
    /// 2 bits.
    pub kind: u8,
    /// 10 or 11 bits.
    pub register: u16,
    /// 20 or 19 bits, zero in a good record.
    pub rest: u32,
    /// 32 bits.
    pub value: u32,
}

impl Head {
    /// The head of an access, with the bits behind the register at zero.
    pub fn new(kind: u8, register: u16, value: u32) -> Head {
        Head {
            kind,
            register,
            rest: 0,
            value,
        }
    }

    /// The head of a record's bytes.
    pub fn of(edition: Edition, record: &[u8]) -> Head {
        let number = |bytes: &[u8]| {
            bytes
                .iter()
                .fold(0, |all, byte| all << 8 | u32::from(*byte))
        };
        let first = number(&record[..4]);
        let zeros = edition.zero_bits();
        Head {
            kind: (first >> 30) as u8,
            register: (first >> zeros) as u16 & largest(edition),
            rest: first & ((1 << zeros) - 1),
            value: number(&record[4..8]),
        }
    }
}

/// The record's bytes.
pub fn pack(edition: Edition, head: Head, wires: (Side, Side), tail: Tail) -> Vec<u8> {
    let value = u64::from(head.rest) << 32 | u64::from(head.value);
    let (kind, register) = (head.kind.into(), head.register.into());
    let mut record = record(edition, kind, register, value, wires);
    let before = edition.bytes() - edition.tail_bytes();
    let rest = tail.bytes();
    record[before..].copy_from_slice(&rest[..edition.tail_bytes()]);
    record
}

/// The bytes of kind, register, value and positive and negative wires, and
/// zeros behind them. The value may run into the zero bits before it, and the
/// register into the kind, for records that are not well formed.
pub fn record(
    edition: Edition,
    kind: u64,
    register: u64,
    value: u64,
    (pos, neg): (Side, Side),
) -> Vec<u8> {
    let head = kind << 62 | register << (32 + edition.zero_bits()) | value;
    let mut record = Vec::with_capacity(edition.bytes());
    record.extend(head.to_be_bytes());
    for side in [pos, neg] {
        let bytes = side.into_iter().flat_map(u64::to_be_bytes);
        record.extend(bytes.take(edition.wire_bytes()));
    }
    record.resize(edition.bytes(), 0);
    record
}
