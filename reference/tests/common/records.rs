//! Records of all editions, packed by hand, and a handler that is run by
//! them alone.

use super::{new, ALERT0, PAUSE, REST};
use reference::{batch, Access, Edition, Handler, LinePairs, Outcome, Sample};

/// All editions, the oldest first.
pub const EDITIONS: [Edition; 4] = [
    Edition::First,
    Edition::Second,
    Edition::Third,
    Edition::Fourth,
];

/// A record from its first 32 bits, its value and its sample. One without a
/// place for the word or the answers must have them 0; receive pairs are left
/// out where there is no place.
pub fn pack(edition: Edition, head: u32, value: u32, sample: Sample) -> Vec<u8> {
    let wire_bytes = match edition {
        Edition::First => 8,
        _ => 31,
    };
    let mut bytes = head.to_be_bytes().to_vec();
    bytes.extend(value.to_be_bytes());
    for set in [sample.pos, sample.neg] {
        let all: Vec<u8> = set.iter().flat_map(|word| word.to_be_bytes()).collect();
        bytes.extend(&all[..wire_bytes]);
    }
    match edition {
        Edition::First | Edition::Second => assert_eq!((sample.word, sample.answers), (0, 0)),
        Edition::Third => {
            bytes.extend(sample.word.to_be_bytes());
            // Four zero bits, then line 0's answer bit to line 3's.
            bytes.push(sample.answers.reverse_bits() >> 4);
        }
        Edition::Fourth => {
            bytes.extend(sample.word.to_be_bytes());
            assert_eq!(sample.answers, 0);
            bytes.push(pairs(sample.receive.unwrap()));
        }
    }
    bytes
}

/// The byte of four receive pairs: p0 n0 p1 n1 p2 n2 p3 n3.
pub fn pairs(receive: LinePairs) -> u8 {
    let digit = |bits: u8, e: u8| bits >> e & 1;
    let bits = (0..4).flat_map(|e| [digit(receive.pos, e), digit(receive.neg, e)]);
    bits.fold(0, |byte, bit| byte * 2 + bit)
}

/// The record of an access whose register number is the edition's own.
pub fn record(edition: Edition, access: Access, sample: Sample) -> Vec<u8> {
    let shift = match edition {
        Edition::First => 20,
        _ => 19,
    };
    let (kind, register, value) = match access {
        Access::None => (0, 0, 0),
        Access::Read { register } => (1, register, 0),
        Access::Write { register, value } => (2, register, value),
        Access::Malformed => (3, 0, 0),
    };
    let head = (kind << 30) | (u32::from(register) << shift);
    pack(edition, head, value, sample)
}

/// What a word holds.
pub fn unpack(word: u64) -> Outcome {
    assert_eq!((word >> 32) & 0xF_FFFF, 0, "20 zeros");
    let refusal = (word >> 52) as i64 & 0xF;
    let value = (word & 0xFFFF_FFFF) as i64;
    assert!(refusal == 0 || value == 0);
    Outcome {
        answer: if refusal == 0 { value } else { -refusal },
        interrupts: ((word >> 60) as u8).reverse_bits() >> 4,
        lines: ((word >> 56) as u8 & 0xF).reverse_bits() >> 4,
    }
}

/// The first number of a block in the first map and in today's, and how many
/// numbers there are for each alert, local alert or class register.
const BLOCKS: [(u16, u16, u16); 10] = [
    (0, 0, 3),
    (16, 16, 7),
    (24, 24, 7),
    (32, 32, 7),
    (40, 40, 7),
    (64, 256, 64),
    (128, 512, 64),
    (192, 768, 64),
    (256, 1024, 64),
    (320, 1280, 64),
];

/// Today's number for one of the first map's, if it lies in a block.
pub fn renumbered(old: u16) -> Option<u16> {
    let block = BLOCKS
        .iter()
        .find(|(from, _, many)| (*from..from + many).contains(&old))?;
    Some(block.1 + (old - block.0))
}

/// A handler run by records of one edition. Register numbers are given in the
/// first map's numbering, as document 01 has them.
pub struct Bench {
    pub edition: Edition,
    pub h: Handler,
}

impl Bench {
    pub fn new(edition: Edition, n: u64) -> Bench {
        Bench { edition, h: new(n) }
    }

    /// N alerts, all enabled in class 0, class 0 with this CTRL.
    pub fn ready(edition: Edition, n: u64, ctrl: u32) -> Bench {
        let mut b = Bench::new(edition, n);
        for i in 0..n as u16 {
            b.configure(128 + i, 1);
        }
        b.configure(321, ctrl);
        b
    }

    fn number(&self, old: u16) -> u16 {
        match self.edition {
            Edition::First => old,
            _ => renumbered(old).unwrap(),
        }
    }

    pub fn tick(&mut self, access: Access, sample: Sample) -> Outcome {
        let access = match access {
            Access::Read { register } => Access::Read {
                register: self.number(register),
            },
            Access::Write { register, value } => Access::Write {
                register: self.number(register),
                value,
            },
            other => other,
        };
        let mut out = [0];
        let bytes = record(self.edition, access, sample);
        assert_eq!(batch(&mut self.h, self.edition, &bytes, &mut out), 0);
        unpack(out[0])
    }

    pub fn read(&mut self, register: u16) -> i64 {
        self.tick(Access::Read { register }, REST).answer
    }

    pub fn write(&mut self, register: u16, value: u32) -> i64 {
        self.tick(Access::Write { register, value }, REST).answer
    }

    /// Two equal writes, as a shadowed register takes a value.
    pub fn configure(&mut self, register: u16, value: u32) {
        for _ in 0..2 {
            assert_eq!(self.write(register, value), 0, "{register}, {value:#x}");
        }
    }

    pub fn idle(&mut self) -> Outcome {
        self.tick(Access::None, REST)
    }

    pub fn event(&mut self) -> Outcome {
        self.tick(Access::None, ALERT0)
    }

    /// The ticks at rest after which alert 0's next rise is taken.
    pub fn pause(&mut self) {
        for _ in 0..PAUSE {
            self.idle();
        }
    }

    /// State and count of class 0.
    pub fn stands(&self) -> (u8, u32) {
        (self.h.classes[0].state, self.h.classes[0].esc_cnt)
    }
}
