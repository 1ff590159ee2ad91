//! The trace writer: what it writes, what it refuses, and what it keeps.

mod common;

use common::Numbers;
use reference::trace::parse;
use reference::writer::WRITTEN;
use reference::{record, Access, Edition, LinePairs, Sample, Wires};

/// The bytes of a record that is written.
const SIZE: usize = 75;

/// Kind, register, value and sample.
type Entry = (u8, u16, u32, Sample);

/// A list as the writer borrows it.
#[derive(Clone, Debug, Default, PartialEq)]
struct List {
    kinds: Vec<u8>,
    registers: Vec<u16>,
    values: Vec<u32>,
    positive: Vec<Wires>,
    negative: Vec<Wires>,
    words: Vec<u32>,
    receive: Vec<LinePairs>,
}

impl List {
    fn of(entries: &[Entry]) -> List {
        let mut list = List::default();
        for entry in entries {
            list.push(*entry);
        }
        list
    }

    fn push(&mut self, entry: Entry) {
        self.kinds.push(entry.0);
        self.registers.push(entry.1);
        self.values.push(entry.2);
        self.positive.push(entry.3.pos);
        self.negative.push(entry.3.neg);
        self.words.push(entry.3.word);
        self.receive.push(entry.3.receive.unwrap());
    }

    fn write(&self, out: &mut [u8]) -> i64 {
        record(
            &self.kinds,
            &self.registers,
            &self.values,
            &self.positive,
            &self.negative,
            &self.words,
            &self.receive,
            out,
        )
    }

    /// The entry as the parser gives it.
    fn entry(&self, i: usize) -> (Access, Sample) {
        let (register, value) = (self.registers[i], self.values[i]);
        let access = match self.kinds[i] {
            0 => Access::None,
            1 => Access::Read { register },
            2 => Access::Write { register, value },
            _ => Access::Malformed,
        };
        let sample = Sample {
            pos: self.positive[i],
            neg: self.negative[i],
            word: self.words[i],
            receive: Some(self.receive[i]),
            answers: 0,
        };
        (access, sample)
    }
}

/// What the parser gives, as an entry of a list.
fn read((access, sample): (Access, Sample)) -> Entry {
    match access {
        Access::None => (0, 0, 0, sample),
        Access::Read { register } => (1, register, 0, sample),
        Access::Write { register, value } => (2, register, value, sample),
        Access::Malformed => panic!("malformed"),
    }
}

/// A sample as a record gives it, with nothing in the last eight places of the
/// wires and the last four of the receive pairs.
fn sample(numbers: &mut Numbers) -> Sample {
    let mut sample = numbers.sample();
    sample.pos[3] &= !0xFF;
    sample.neg[3] &= !0xFF;
    sample.word = numbers.next() as u32;
    sample.receive = Some(LinePairs {
        pos: numbers.below(16) as u8,
        neg: numbers.below(16) as u8,
    });
    sample
}

/// A sample of these parts, the receive pairs' positive and negative bits last.
fn of(pos: Wires, neg: Wires, word: u32, receive: (u8, u8)) -> Sample {
    Sample {
        pos,
        neg,
        word,
        receive: Some(LinePairs {
            pos: receive.0,
            neg: receive.1,
        }),
        answers: 0,
    }
}

/// An entry that a record holds.
fn entry(numbers: &mut Numbers) -> Entry {
    let register = [0, 1023, 1024, 2047, numbers.below(2048) as u16][numbers.below(5) as usize];
    let value = [0, 1, u32::MAX, numbers.next() as u32][numbers.below(4) as usize];
    let sample = sample(numbers);
    match numbers.below(3) {
        0 => (0, 0, 0, sample),
        1 => (1, register, 0, sample),
        _ => (2, register, value, sample),
    }
}

fn list(numbers: &mut Numbers) -> List {
    let mut list = List::default();
    for _ in 0..numbers.below(9) {
        list.push(entry(numbers));
    }
    list
}

/// Three entries that records hold.
fn three() -> List {
    let wires = |first| [first, 5, 6, 7 << 8];
    List::of(&[
        (2, 1, 2, of(wires(3), wires(4), 10, (11, 1))),
        (1, 5, 0, of(wires(6), wires(7), 12, (13, 0))),
        (0, 0, 0, of(wires(8), wires(9), 14, (15, 15))),
    ])
}

/// A buffer with no two neighbours alike.
fn buffer(length: usize) -> Vec<u8> {
    (0..length).map(|at| (at * 37 + 11) as u8).collect()
}

fn hex(bytes: &[u8]) -> String {
    bytes.iter().map(|byte| format!("{byte:02x}")).collect()
}

#[test]
fn the_newest_edition_is_written() {
    assert_eq!((WRITTEN, WRITTEN.bytes()), (Edition::Fourth, SIZE));
}

#[test]
fn the_papers_accesses() {
    // 321 and 1023 of the base are 1281 now and a number that is unassigned.
    let rest = of([0; 4], [1 << 63, 0, 0, 0], 0, (0, 15));
    let list = List::of(&[(1, 1281, 0, rest), (2, 2047, 0, rest)]);
    let mut out = buffer(150);
    assert_eq!(list.write(&mut out), 150);
    let sample = "00".repeat(31) + "80" + &"00".repeat(30) + "0000000055";
    assert_eq!(hex(&out[..75]), format!("6808000000000000{sample}"));
    assert_eq!(hex(&out[75..]), format!("bff8000000000000{sample}"));
}

/// Wires with a byte of their own at every end of a word.
const MARKED: Wires = [
    0x0123_4567_89ab_cdef,
    0xfedc_ba98_7654_3210,
    0x1122_3344_5566_7788,
    0x99aa_bbcc_ddee_ffa5,
];

/// Words and receive pairs, and a record's last bytes. Line 0 and its positive
/// wire come first; bits 4 to 7 are no wires.
const ENDS: [(u32, (u8, u8), &str); 13] = [
    (0, (0, 0), "0000000000"),
    (0, (0, 15), "0000000055"),
    (0, (15, 0), "00000000aa"),
    (u32::MAX, (15, 15), "ffffffffff"),
    (0x0123_4567, (1, 0), "0123456780"),
    (0x89ab_cdef, (0, 1), "89abcdef40"),
    (1, (2, 0), "0000000120"),
    (1 << 31, (0, 2), "8000000010"),
    (0x10_0000, (4, 0), "0010000008"),
    (7, (0, 4), "0000000704"),
    (8, (8, 0), "0000000802"),
    (9, (0, 8), "0000000901"),
    (10, (0xF3, 0xFC), "0000000aa5"),
];

#[test]
fn each_field_has_its_bits() {
    let (none, full) = ([0; 4], [u64::MAX; 4]);
    let (zero, all) = (&*"00".repeat(31), &*"ff".repeat(31));
    // The last byte of the last word is no wire.
    let marked = "0123456789abcdeffedcba9876543210112233445566778899aabbccddeeff";
    let rows = [
        ((0, 0, 0, none, none), ["0000000000000000", zero, zero]),
        ((0, 0, 0, full, none), ["0000000000000000", all, zero]),
        ((1, 0, 0, none, full), ["4000000000000000", zero, all]),
        (
            (1, 2047, 0, MARKED, none),
            ["7ff8000000000000", marked, zero],
        ),
        (
            (1, 1024, 0, none, MARKED),
            ["6000000000000000", zero, marked],
        ),
        (
            (2, 1, 0x123_4567, full, MARKED),
            ["8008000001234567", all, marked],
        ),
        (
            (2, 512, u32::MAX, none, none),
            ["90000000ffffffff", zero, zero],
        ),
    ];
    for ((kind, register, value, pos, neg), bytes) in rows {
        for (word, receive, last) in ENDS {
            let entry = (kind, register, value, of(pos, neg, word, receive));
            let mut out = buffer(SIZE);
            assert_eq!(List::of(&[entry]).write(&mut out), 75);
            assert_eq!(hex(&out), bytes.concat() + last);
        }
    }
}

#[test]
fn reading_what_was_written() {
    let mut numbers = Numbers(1);
    for _ in 0..2000 {
        let list = list(&mut numbers);
        let entries = list.kinds.len();
        let mut out = buffer(entries * SIZE + (numbers.next() % 50) as usize);
        let before = out.clone();
        assert_eq!(list.write(&mut out), (entries * SIZE) as i64);
        for (i, written) in out.chunks_exact(SIZE).take(entries).enumerate() {
            assert_eq!(parse(Edition::Fourth, written), list.entry(i));
        }
        assert_eq!(out[entries * SIZE..], before[entries * SIZE..]);
    }
}

#[test]
fn writing_what_was_read() {
    let mut numbers = Numbers(2);
    for _ in 0..2000 {
        let mut list = List::default();
        let mut bytes = Vec::new();
        for _ in 0..numbers.next() % 9 {
            // Random bytes, with as few changed as it takes to be well formed.
            let mut record: [u8; SIZE] = std::array::from_fn(|_| numbers.next() as u8);
            record[1] &= 0xF8;
            record[2..4].fill(0);
            match record[0] >> 6 {
                0 => record[..8].fill(0),
                1 => record[4..8].fill(0),
                2 => {}
                _ => record[0] &= 0xBF,
            }
            list.push(read(parse(Edition::Fourth, &record)));
            bytes.extend(record);
        }
        let mut out = buffer(bytes.len());
        assert_eq!(list.write(&mut out), bytes.len() as i64);
        assert_eq!(out, bytes);
    }
}

/// Entries that no well-formed record holds.
fn unrecordable() -> Vec<(u8, u16, u32)> {
    let mut bad = Vec::new();
    for kind in 3..=255 {
        bad.push((kind, 0, 0));
        bad.push((kind, 321, 1));
    }
    for bit in 0..16 {
        bad.push((0, 1 << bit, 0));
    }
    for bit in 0..32 {
        bad.push((0, 0, 1 << bit));
        bad.push((1, 0, 1 << bit));
        bad.push((1, 321, 1 << bit));
    }
    for register in [2048, 2049, 4096, 2048 + 1281, 32768, 65535] {
        bad.push((1, register, 0));
        bad.push((2, register, 0));
        bad.push((2, register, 1));
    }
    bad
}

#[test]
fn an_unrecordable_entry_is_refused_at_every_place() {
    let mut numbers = Numbers(3);
    for (kind, register, value) in unrecordable() {
        for place in 0..4 {
            let mut list = List::default();
            for at in 0..4 {
                let mut entry = entry(&mut numbers);
                if at == place {
                    (entry.0, entry.1, entry.2) = (kind, register, value);
                }
                list.push(entry);
            }
            // 10 comes before 11.
            for length in [0, 75, 96, 299, 300, 301, 400] {
                let before = buffer(length);
                let mut out = before.clone();
                assert_eq!(list.write(&mut out), -10, "{kind} {register} {value}");
                assert_eq!(out, before);
            }
        }
    }
}

#[test]
fn all_other_entries_are_written() {
    for kind in 0..=2 {
        for register in 0..2048 {
            for value in [0, 1, 1 << 31, u32::MAX] {
                let good = match kind {
                    0 => register == 0 && value == 0,
                    1 => value == 0,
                    _ => true,
                };
                let sample = of([5; 4], [6; 4], 7, (8, 9));
                let list = List::of(&[(kind, register, value, sample)]);
                let mut out = [0; SIZE];
                assert_eq!(list.write(&mut out), if good { 75 } else { -10 });
            }
        }
    }
}

#[test]
fn slices_of_unequal_lengths_are_refused() {
    let good = three();
    let change: [fn(&mut List, usize); 7] = [
        |list, length| list.kinds.resize(length, 0),
        |list, length| list.registers.resize(length, 0),
        |list, length| list.values.resize(length, 0),
        |list, length| list.positive.resize(length, [0; 4]),
        |list, length| list.negative.resize(length, [0; 4]),
        |list, length| list.words.resize(length, 0),
        |list, length| list.receive.resize(length, LinePairs::at_rest()),
    ];
    for resize in change {
        for length in [0, 1, 2, 4, 9] {
            let mut list = good.clone();
            resize(&mut list, length);
            for size in [0, 77, 224, 225, 900] {
                let before = buffer(size);
                let mut out = before.clone();
                assert_eq!(list.write(&mut out), -10);
                assert_eq!(out, before);
            }
        }
    }
}

#[test]
fn a_short_buffer_is_refused_and_kept() {
    let list = three();
    for length in 0..225 {
        let before = buffer(length);
        let mut out = before.clone();
        assert_eq!(list.write(&mut out), -11);
        assert_eq!(out, before);
    }
    for length in 225..320 {
        let before = buffer(length);
        let mut out = before.clone();
        assert_eq!(list.write(&mut out), 225);
        assert_eq!(out[225..], before[225..]);
        assert_ne!(out[..225], before[..225]);
    }
}

#[test]
fn an_empty_list_writes_nothing() {
    for length in [0, 1, 24, 70, 75, 100] {
        let before = buffer(length);
        let mut out = before.clone();
        assert_eq!(List::default().write(&mut out), 0);
        assert_eq!(out, before);
    }
}
