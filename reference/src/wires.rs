//! Wire sets, the sample that goes into a tick, and the pairs that come out.

use crate::line_pairs::LinePairs;

/// A wire set as it is lent: 256 places, alert i at bit 63 - i % 64 of word
/// i / 64. Places 248 to 255 are no wires; whatever they hold is left out.
pub type Wires = [u64; 4];

/// The bytes that hold the 248 wires of a set, alert 0 first.
pub const WIRE_BYTES: usize = 31;

/// What a tick samples.
#[derive(Clone, Copy, Debug, PartialEq, Eq)]
pub struct Sample {
    /// The positive wires.
    pub pos: Wires,
    /// The negative wires.
    pub neg: Wires,
    /// The tick's entropy word.
    pub word: u32,
    /// The pairs that come back on the escalation lines. They are checked, and
    /// they answer the lines' pings. A tick of an older edition has none; its
    /// senders are not checked.
    pub receive: Option<LinePairs>,
    /// In a tick without receive pairs, the escalation pings that are answered,
    /// line 0 lowest. Bits 4 to 7 count for nothing, and beside receive pairs
    /// no bit does.
    pub answers: u8,
}

impl Sample {
    /// Every alert and every receive pair at (0,1), and the word 0.
    pub const fn at_rest() -> Sample {
        Sample {
            pos: [0; 4],
            neg: [u64::MAX; 4],
            word: 0,
            receive: Some(LinePairs::at_rest()),
            answers: 0,
        }
    }

    /// Whether the escalation senders are checked in the tick.
    pub fn checks(&self) -> bool {
        self.receive.is_some()
    }
}

/// One pair of wires to each alert. All 256 places hold a pair; those that
/// are no alert's hold (0,1).
#[derive(Clone, Copy, Debug, PartialEq, Eq)]
pub struct Pairs {
    /// The positive wires.
    pub pos: Wires,
    /// The negative wires.
    pub neg: Wires,
}

impl Pairs {
    /// Every pair at (0,1).
    pub const fn at_rest() -> Pairs {
        Pairs {
            pos: [0; 4],
            neg: [u64::MAX; 4],
        }
    }

    /// Puts the pair of alert i at (1,0).
    pub(crate) fn raise(&mut self, i: usize) {
        let bit = 1 << (63 - i % 64);
        self.pos[i / 64] |= bit;
        self.neg[i / 64] &= !bit;
    }
}

/// The wire of alert i.
pub fn wire(wires: &Wires, i: usize) -> bool {
    (wires[i / 64] >> (63 - i % 64)) & 1 == 1
}

/// The wire set in a record's bytes; places past the bytes hold 0.
pub fn from_bytes(bytes: &[u8]) -> Wires {
    let mut wires = [0; 4];
    for (at, byte) in bytes.iter().enumerate() {
        wires[at / 8] |= u64::from(*byte) << (56 - 8 * (at % 8));
    }
    wires
}

/// The bytes of the 248 wires. The last eight places have no byte here, so
/// nothing of them is written.
pub fn to_bytes(wires: &Wires) -> [u8; WIRE_BYTES] {
    let mut bytes = [0; WIRE_BYTES];
    for (at, byte) in bytes.iter_mut().enumerate() {
        *byte = wires[at / 8].to_be_bytes()[at % 8];
    }
    bytes
}
