//! The trace writer.
use crate::answer::Answer;
use crate::input::Input;
use crate::library;

/// Writes a record of the newest edition for each input, one after another, and answers the bytes written; later bytes stay.
/// Refusal 10: an access that no well-formed record holds, a register over 2047 or `Malformed`. Refusal 11: `out` is too
/// short. 10 comes first; either leaves `out` as it was. Places 248 to 255 of the wires are left out, and so are the bits of
/// the receive pairs from 4 up; `answers` has no place in such a record.
pub fn record(inputs: &[Input], out: &mut [u8]) -> Answer {
    let numbers = || inputs.iter().map(|input| input.access.numbers());
    let kinds: Vec<u8> = numbers().map(|(kind, _, _)| kind).collect();
    let registers: Vec<u16> = numbers().map(|(_, register, _)| register).collect();
    let values: Vec<u32> = numbers().map(|(_, _, value)| value).collect();
    let samples = || inputs.iter().map(|input| input.sample);
    let positive: Vec<u64> = samples().flat_map(|it| it.alerts.pos).collect();
    let negative: Vec<u64> = samples().flat_map(|it| it.alerts.neg).collect();
    let entropy: Vec<u32> = samples().map(|it| it.word).collect();
    let receive_positive: Vec<u8> = samples().map(|it| it.receive.pos as u8).collect();
    let receive_negative: Vec<u8> = samples().map(|it| it.receive.neg as u8).collect();
    let lists = Lists {
        kinds: &kinds,
        registers: &registers,
        values: &values,
        positive: &positive,
        negative: &negative,
        entropy: &entropy,
        receive_positive: &receive_positive,
        receive_negative: &receive_negative,
    };
    record_numbers(lists, out)
}

/// Eight lists of numbers, of which entry i is tick i's.
#[derive(Clone, Copy, Debug)]
pub struct Lists<'a> {
    /// 0 none, 1 read, 2 write.
    pub kinds: &'a [u8],
    /// The registers' numbers.
    pub registers: &'a [u16],
    /// The values written.
    pub values: &'a [u32],
    /// The positive wires, `WORDS` words for each entry.
    pub positive: &'a [u64],
    /// The negative wires, `WORDS` words for each entry.
    pub negative: &'a [u64],
    /// The entropy words.
    pub entropy: &'a [u32],
    /// The positive wires of the lines' receive pairs, line 0 at the lowest bit; bits 4 to 7 are left out.
    pub receive_positive: &'a [u8],
    /// Their negative wires.
    pub receive_negative: &'a [u8],
}

/// The same of lists of numbers. Refusal 10 also for lists of unequal lengths, a kind over 2, a read with a value, and kind 0
/// with a register or value.
pub fn record_numbers(lists: Lists, out: &mut [u8]) -> Answer {
    Answer(library::record(lists, out))
}
