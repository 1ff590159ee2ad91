//! The escalation wires: right answers, answers of receivers, and waves of one
//! line, a character a tick. `1` is the pair (1,0), `0` is (0,1), `x` is (0,0)
//! and `X` is (1,1).

use super::waves::PAIRS;
use super::REST;
use reference::{EscalationReceiver, Handler, LinePairs, Sample};

/// The answers that sound receivers send in the coming tick.
pub fn right(h: &Handler) -> LinePairs {
    let mut pairs = LinePairs { pos: 0, neg: 0 };
    for (e, sender) in h.senders.iter().enumerate() {
        pairs.pos |= u8::from(sender.expected()) << e;
        pairs.neg |= u8::from(!sender.expected()) << e;
    }
    pairs
}

/// The sample with these receive pairs.
pub fn receiving(mut sample: Sample, receive: LinePairs) -> Sample {
    sample.receive = Some(receive);
    sample
}

/// At rest but for what sound receivers of this handler answer.
pub fn sound(h: &Handler) -> Sample {
    receiving(REST, right(h))
}

/// The pair that a wave's character stands for.
pub fn pair(wave: char) -> (bool, bool) {
    let (_, (pos, neg)) = PAIRS.iter().find(|row| row.0 == wave).unwrap();
    (*pos == 1, *neg == 1)
}

/// The wave's character of a pair.
pub fn level(pair: (bool, bool)) -> char {
    match pair {
        (true, false) => '1',
        (false, true) => '0',
        (false, false) => 'x',
        (true, true) => 'X',
    }
}

/// Four receivers at the other end of the wires.
#[derive(Clone, Debug, PartialEq, Eq)]
pub struct Receivers(pub [EscalationReceiver; 4]);

impl Receivers {
    pub fn new() -> Receivers {
        Receivers([EscalationReceiver::new(); 4])
    }

    /// What they answer in the coming tick.
    pub fn answers(&self) -> LinePairs {
        let mut pairs = LinePairs { pos: 0, neg: 0 };
        for (e, receiver) in self.0.iter().enumerate() {
            pairs = pairs.with(e, receiver.answer());
        }
        pairs
    }

    /// They read a tick's pairs; says which see an escalation, line 0 lowest.
    pub fn step(&mut self, sent: LinePairs) -> u8 {
        let mut seen = 0;
        for (e, receiver) in self.0.iter_mut().enumerate() {
            let (pos, neg) = sent.pair(e);
            seen |= u8::from(receiver.step(pos, neg).escalation) << e;
        }
        seen
    }
}
