//! What the tests share: a handler, single ticks with today's register
//! numbers, and wires.
#![allow(dead_code)] // no test file uses all of it

pub mod calm;
pub mod driven;
pub mod dumps;
pub mod escalation;
pub mod pinged;
pub mod policy;
pub mod records;
pub mod shadowed;
pub mod timer;
pub mod waves;

use reference::{Access, Handler, LinePairs, Sample, Ticked, Wires};

/// The escalation lines.
pub const LINES: [usize; 4] = [0, 1, 2, 3];
/// Every receive pair of the escalation lines at rest: (0,1).
pub const SILENT: LinePairs = LinePairs { pos: 0, neg: 15 };
/// Every alert and every receive pair at rest: (0,1). The word is 0.
pub const REST: Sample = Sample {
    pos: [0; 4],
    neg: [u64::MAX; 4],
    word: 0,
    receive: Some(SILENT),
    answers: 0,
};
/// Alert 0 at (1,0), the others at rest.
pub const ALERT0: Sample = Sample {
    pos: [1 << 63, 0, 0, 0],
    neg: [!(1 << 63), u64::MAX, u64::MAX, u64::MAX],
    word: 0,
    receive: Some(SILENT),
    answers: 0,
};
/// Numbers of alerts on both sides of every word, and the most.
pub const COUNTS: [u64; 10] = [1, 63, 64, 65, 127, 128, 191, 192, 247, 248];

/// A sample of these wires with the receive pairs at rest and the word 0.
pub fn sampled(pos: Wires, neg: Wires) -> Sample {
    Sample { pos, neg, ..REST }
}

/// A sample with this place at this pair.
pub fn with(mut sample: Sample, place: usize, pair: (u64, u64)) -> Sample {
    let shift = 63 - place % 64;
    for (set, wire) in [(&mut sample.pos, pair.0), (&mut sample.neg, pair.1)] {
        set[place / 64] &= !(1 << shift);
        set[place / 64] |= wire << shift;
    }
    sample
}

/// These alerts at (1,0), the others at rest.
pub fn raised(alerts: &[usize]) -> Sample {
    alerts
        .iter()
        .fold(REST, |sample, i| with(sample, *i, (1, 0)))
}

pub fn new(n: u64) -> Handler {
    let (handler, answer) = Handler::new(n);
    assert_eq!(answer, 0);
    handler
}

pub fn tick(h: &mut Handler, access: Access, sample: Sample) -> Ticked {
    h.tick(access, &sample)
}

pub fn read(h: &mut Handler, register: u16) -> i64 {
    tick(h, Access::Read { register }, REST).answer
}

pub fn write(h: &mut Handler, register: u16, value: u32) -> i64 {
    tick(h, Access::Write { register, value }, REST).answer
}

/// Two equal writes, as a shadowed register takes a value.
pub fn configure(h: &mut Handler, register: u16, value: u32) {
    for _ in 0..2 {
        assert_eq!(write(h, register, value), 0, "{register}, {value:#x}");
    }
}

pub fn idle(h: &mut Handler) -> Ticked {
    tick(h, Access::None, REST)
}

/// Alert 0 raised for one tick. From a ready receiver it is one event; the
/// caller lets a `pause` follow before the next.
pub fn event(h: &mut Handler) -> Ticked {
    tick(h, Access::None, ALERT0)
}

/// The ticks at rest between an alert raised for one tick and the first in
/// which its next rise is taken: its drop and the two of pause.
pub const PAUSE: usize = 3;

/// These ticks at rest.
pub fn pause(h: &mut Handler) {
    for _ in 0..PAUSE {
        idle(h);
    }
}

/// N alerts, all enabled in class 0, class 0 with this CTRL.
pub fn ready(n: u64, ctrl: u32) -> Handler {
    let mut h = new(n);
    for i in 0..n as u16 {
        configure(&mut h, 512 + i, 1);
    }
    configure(&mut h, 1281, ctrl);
    h
}

/// Numbers that look random (xorshift).
pub struct Numbers(pub u64);

impl Numbers {
    pub fn next(&mut self) -> u64 {
        self.0 ^= self.0 << 13;
        self.0 ^= self.0 >> 7;
        self.0 ^= self.0 << 17;
        self.0
    }

    pub fn below(&mut self, bound: u64) -> u64 {
        // The lower bits are the weaker ones.
        (self.next() >> 20) % bound
    }

    pub fn wires(&mut self) -> Wires {
        std::array::from_fn(|_| self.next())
    }

    /// The sample with any receive pairs, or now and then with none but any
    /// answer bits, as an older edition has it.
    pub fn received(&mut self, mut sample: Sample) -> Sample {
        if self.below(8) == 0 {
            (sample.receive, sample.answers) = (None, self.next() as u8);
        } else {
            sample.receive = Some(LinePairs::from_byte(self.next() as u8));
        }
        sample
    }

    /// Any wires, with the receive pairs at rest and the word 0.
    pub fn sample(&mut self) -> Sample {
        sampled(self.wires(), self.wires())
    }
}
