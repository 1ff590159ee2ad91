//! What a writer may get wrong.

use crate::slip::Slip::{self, Answers, Refuses, Slices, Takes, Unchecked, Writes};
use crate::slip::{held, pour};
use handler::WORDS;
use harness::entries::{Lent, LISTS};
use harness::record::WRITTEN_BYTES;
use std::mem::swap;

/// As many of a list.
fn first(list: &[u8], most: usize) -> &[u8] {
    &list[..list.len().min(most)]
}

/// Every slip; the default set must find each of them.
pub const SLIPS: &[Slip] = &[
    Takes("wires swapped", |row| {
        swap(&mut row.wires.pos, &mut row.wires.neg)
    }),
    Takes("alert 0 last", |row| {
        row.wires.pos = row.wires.pos.map(u64::reverse_bits);
        row.wires.neg = row.wires.neg.map(u64::reverse_bits);
    }),
    Takes("the last word of the wires first", |row| {
        row.wires.pos.reverse();
        row.wires.neg.reverse();
    }),
    Takes("alert 247 lost", |row| row.wires.neg[3] |= 1 << 8),
    Takes("the words of the first alerts alone", |row| {
        row.wires.pos[1..].fill(0);
        row.wires.neg[1..].fill(0);
    }),
    Takes("the kind cut to two bits", |row| row.kind &= 3),
    Takes("kind 3 taken for a write", |row| {
        row.kind -= u8::from(row.kind == 3)
    }),
    Takes("the register cut to eleven bits", |row| {
        row.register &= 0x7FF
    }),
    Takes("register 2048 accepted", |row| {
        row.register *= u16::from(row.register != 2048)
    }),
    Takes("a register without access dropped", |row| {
        row.register *= u16::from(row.kind != 0)
    }),
    Takes("a value without access dropped", |row| {
        row.value *= u32::from(row.kind != 0)
    }),
    Takes("a read's value dropped", |row| {
        row.value *= u32::from(row.kind != 1)
    }),
    Takes("the value's lowest byte first", |row| {
        row.value = row.value.swap_bytes()
    }),
    Slices("unequal slices cut to the shortest", |list| {
        let least = list.rows().len();
        Lent {
            kinds: &list.kinds[..least],
            registers: &list.registers[..least],
            values: &list.values[..least],
            positive: &list.positive[..least * WORDS],
            negative: &list.negative[..least * WORDS],
            entropy: &list.entropy[..least],
            receive_positive: &list.receive_positive[..least],
            receive_negative: &list.receive_negative[..least],
        }
    }),
    Slices("longer positive receive wires accepted", |list| Lent {
        receive_positive: first(list.receive_positive, list.kinds.len()),
        ..list
    }),
    Slices("longer negative receive wires accepted", |list| Lent {
        receive_negative: first(list.receive_negative, list.kinds.len()),
        ..list
    }),
    Slices("longer words accepted", |list| Lent {
        entropy: &list.entropy[..list.entropy.len().min(list.kinds.len())],
        ..list
    }),
    Takes("the word's lowest byte first", |row| {
        row.word = row.word.swap_bytes()
    }),
    Takes("no word written", |row| row.word = 0),
    Takes("the pairs' last line first", |row| {
        let turned = |bits: u8| bits.reverse_bits() >> 4;
        row.receive = (turned(row.receive.0), turned(row.receive.1))
    }),
    Takes("the pairs' negative wire first", |row| {
        row.receive = (row.receive.1, row.receive.0)
    }),
    Takes("line 3's pair lost", |row| row.receive.0 &= 7),
    Takes("receive pairs at rest", |row| row.receive = (0, 15)),
    Writes("all positive wires first", |call, out| {
        let records = out[..call.written()].chunks_exact_mut(WRITTEN_BYTES);
        for (record, row) in records.zip(call.list.rows()) {
            record[WRITTEN_BYTES - 1] = row.receive.0 << 4 | row.receive.1 & 15;
        }
    }),
    Refuses("upper bits of the receive pairs refused", -10, |call| {
        let mut positive = call.list.receive_positive.iter();
        positive.any(|bits| bits >> 4 != 0)
    }),
    Slices("longer negative wires accepted", |list| Lent {
        negative: &list.negative[..list.negative.len().min(list.kinds.len() * WORDS)],
        ..list
    }),
    Slices("words that make no whole entry dropped", |list| Lent {
        positive: &list.positive[..list.positive.len() / WORDS * WORDS],
        ..list
    }),
    Refuses("a place that is no wire refused", -10, |call| {
        let mut last = call.list.positive.iter().skip(3).step_by(WORDS);
        last.any(|word| word & 255 != 0)
    }),
    Refuses("11 before 10", -11, |call| call.before.len() < call.need()),
    Refuses("11 before 10 for unequal slices only", -11, |call| {
        !call.list.even() && call.before.len() < call.need()
    }),
    Refuses("register 2047 refused", -10, |call| {
        call.list.registers.contains(&2047)
    }),
    Refuses("a register over ten bits refused", -10, |call| {
        call.list.registers.iter().any(|number| *number > 1023)
    }),
    Refuses("an empty list refused", -10, |call| {
        call.list.lengths() == [0; LISTS]
    }),
    Refuses("an exact buffer refused", -11, |call| {
        call.answer > 0 && call.before.len() == call.need()
    }),
    Refuses("only an exact buffer accepted", -11, |call| {
        call.answer > 0 && call.before.len() > call.need()
    }),
    Unchecked("only the first entry checked", |at, _| at > 0),
    Unchecked("the last entry not checked", |at, count| at + 1 == count),
    Writes("the entries before a bad one written", |call, out| {
        if call.answer == -10 && call.list.even() {
            let rows = call.list.rows();
            let good = rows.iter().take_while(|row| held(row)).count();
            pour(&rows[..good], out);
        }
    }),
    Writes("a short buffer filled as far as it goes", |call, out| {
        if call.answer == -11 {
            pour(&call.list.rows(), out);
        }
    }),
    Writes("the buffer touched on refusal 10", |call, out| {
        if call.answer == -10 && !out.is_empty() {
            out[0] ^= 1;
        }
    }),
    Writes("the buffer touched on refusal 11", |call, out| {
        if call.answer == -11 && !out.is_empty() {
            out[0] = 0;
        }
    }),
    Writes("a zero bit set", |call, out| {
        // The lowest of the 19, in the second record only.
        if call.written() > WRITTEN_BYTES {
            out[WRITTEN_BYTES + 3] |= 1;
        }
    }),
    Writes("the first of the zero bits set", |call, out| {
        if call.written() > 0 {
            out[1] |= 4;
        }
    }),
    Writes("the value cut to 31 bits", |call, out| {
        if call.written() > 0 {
            out[4] &= 0x7F;
        }
    }),
    Writes("old bits of the buffer kept", |call, out| {
        let written = out[..call.written()].iter_mut();
        for (byte, old) in written.zip(call.before) {
            *byte |= old;
        }
    }),
    Writes("the first record copied onward", |call, out| {
        for at in WRITTEN_BYTES..call.written() {
            out[at] = out[at - WRITTEN_BYTES];
        }
    }),
    Writes("a later byte cleared", |call, out| {
        if call.answer >= 0 && call.written() < out.len() {
            out[call.written()] = 0;
        }
    }),
    Answers("the entries answered, not the bytes", |call| {
        call.answer.min(call.list.kinds.len() as i64)
    }),
    Answers("the buffer's length answered", |call| {
        if call.answer < 0 {
            return call.answer;
        }
        call.before.len() as i64
    }),
];
