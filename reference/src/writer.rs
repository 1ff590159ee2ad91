//! The trace writer: accesses and samples in, records out. Most significant
//! bit first.

use crate::answer::Refusal;
use crate::edition::Edition;
use crate::line_pairs::LinePairs;
use crate::wires::{to_bytes, Wires};

/// The edition that is written: the newest.
pub const WRITTEN: Edition = Edition::Fourth;

/// Writes one record of the newest edition for each entry of a list to the
/// front of `out` and answers the bytes written; later bytes stay as they
/// were. The seven slices are the list: kind (0 none, 1 read, 2 write),
/// register, value, positive and negative wires, entropy word and receive pairs.
///
/// Answers -10 if no well-formed record holds one of the entries, and if the
/// slices do not all have the same length; else -11 if `out` is shorter than
/// the records. Either leaves every byte of `out` as it was. Places 248 to 255
/// of the wires are no wires, and neither are bits 4 to 7 of the receive pairs:
/// they are left out and refuse nothing.
// One slice for each field of a record, so there are as many as fields.
#[allow(clippy::too_many_arguments)]
pub fn record(
    kinds: &[u8],
    registers: &[u16],
    values: &[u32],
    positive: &[Wires],
    negative: &[Wires],
    words: &[u32],
    receive: &[LinePairs],
    out: &mut [u8],
) -> i64 {
    let entries = kinds.len();
    let accesses = [registers.len(), values.len()];
    let wires = [positive.len(), negative.len()];
    let pings = [words.len(), receive.len()];
    if [accesses, wires, pings] != [[entries; 2]; 3] {
        return Refusal::Unrecordable.answer();
    }
    // The whole list is judged before a byte is written.
    for i in 0..entries {
        if !held(kinds[i], registers[i], values[i]) {
            return Refusal::Unrecordable.answer();
        }
    }
    let size = WRITTEN.bytes();
    if out.len() / size < entries {
        return Refusal::ShortBuffer.answer();
    }
    for (i, record) in out.chunks_exact_mut(size).take(entries).enumerate() {
        put_access(&mut record[..8], kinds[i], registers[i], values[i]);
        record[8..39].copy_from_slice(&to_bytes(&positive[i]));
        record[39..70].copy_from_slice(&to_bytes(&negative[i]));
        record[70..74].copy_from_slice(&words[i].to_be_bytes());
        record[74] = receive[i].to_byte();
    }
    (entries * size) as i64
}

/// Whether a well-formed record holds the access: 11 bits for the register.
fn held(kind: u8, register: u16, value: u32) -> bool {
    match kind {
        0 => register == 0 && value == 0,
        1 => register < 2048 && value == 0,
        2 => register < 2048,
        _ => false,
    }
}

/// Fills the first eight bytes: 2 bits kind, 11 register, 19 zeros, 32 value.
fn put_access(bytes: &mut [u8], kind: u8, register: u16, value: u32) {
    let head = (u32::from(kind) << 30) | (u32::from(register) << 19);
    bytes[..4].copy_from_slice(&head.to_be_bytes());
    bytes[4..].copy_from_slice(&value.to_be_bytes());
}
