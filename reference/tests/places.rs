//! Places 248 to 255 of a lent sample, and bits 4 to 7 of its receive pairs:
//! they are no wires, whatever they hold.

mod common;

use common::records::unpack;
use common::{ready, sampled, tick, with, Numbers, COUNTS, REST};
use reference::trace::parse;
use reference::wires::{from_bytes, to_bytes, wire};
use reference::{batch, record, Access, Edition, LinePairs, Sample, Wires};

/// The sample with the last eight places of each set as given.
fn places(mut sample: Sample, positive: u8, negative: u8) -> Sample {
    for (set, held) in [(&mut sample.pos, positive), (&mut sample.neg, negative)] {
        set[3] = (set[3] & !0xFF) | u64::from(held);
    }
    sample
}

/// What the places may hold: nothing, all, equal and unequal pairs.
const HELD: [(u8, u8); 7] = [
    (0, 0),
    (0xFF, 0xFF),
    (0xFF, 0),
    (0, 0xFF),
    (0x80, 0x7F),
    (0x01, 0x01),
    (0xA5, 0x3C),
];

/// The 248 pairs of a sample, alert 0 first.
fn pairs(positive: &Wires, negative: &Wires) -> Vec<(bool, bool)> {
    (0..248)
        .map(|i| (wire(positive, i), wire(negative, i)))
        .collect()
}

/// Writes a read of CTRL with this sample.
fn written(sample: Sample) -> [u8; 75] {
    let Sample { pos, neg, .. } = sample;
    let (words, receive) = ([sample.word], [sample.receive.unwrap()]);
    let mut out = [0x5A; 75];
    let answer = record(
        &[1],
        &[1281],
        &[0],
        &[pos],
        &[neg],
        &words,
        &receive,
        &mut out,
    );
    assert_eq!(answer, 75);
    out
}

/// Any receive pairs, with bits 4 to 7 as they come.
fn receive(numbers: &mut Numbers) -> LinePairs {
    LinePairs {
        pos: numbers.next() as u8,
        neg: numbers.next() as u8,
    }
}

#[test]
fn each_place_has_its_bit() {
    for i in 0..256 {
        let mut expected = [0; 4];
        expected[i / 64] = 1 << (63 - i % 64);
        let sample = with(sampled([0; 4], [0; 4]), i, (1, 0));
        assert_eq!(sample.pos, expected);
        for at in 0..248 {
            assert_eq!(wire(&expected, at), at == i);
        }
        let mut bytes = [0; 31];
        if i < 248 {
            bytes[i / 8] = 0x80 >> (i % 8);
            assert_eq!(from_bytes(&bytes), expected);
        }
        assert_eq!(to_bytes(&expected), bytes);
    }
}

#[test]
fn a_tick_does_not_look_at_them() {
    let mut numbers = Numbers(21);
    for n in COUNTS {
        for _ in 0..50 {
            let sample = numbers.sample();
            let mut start = ready(n, 0x393D);
            start.locals[2].en = 1;
            let mut plain = start.clone();
            let ticked = tick(&mut plain, Access::None, places(sample, 0, 0));
            for (positive, negative) in HELD {
                let mut h = start.clone();
                let sample = places(sample, positive, negative);
                assert_eq!(tick(&mut h, Access::None, sample), ticked);
                assert_eq!(h, plain, "N {n}");
            }
        }
    }
}

#[test]
fn they_are_no_equal_wires_and_no_event() {
    let mut h = ready(248, 0x393D);
    h.locals[2].en = 1;
    let before = h.clone();
    for (positive, negative) in HELD {
        let ticked = tick(&mut h, Access::None, places(REST, positive, negative));
        assert_eq!((ticked.answer, ticked.lines), (0, 0));
        assert_eq!(h, before);
    }
}

#[test]
fn the_writer_leaves_them_out() {
    let mut numbers = Numbers(22);
    for _ in 0..200 {
        let mut sample = numbers.sample();
        sample.word = numbers.next() as u32;
        sample.receive = Some(receive(&mut numbers));
        let plain = written(places(sample, 0, 0));
        for (positive, negative) in HELD {
            let lent = places(sample, positive, negative);
            let bytes = written(lent);
            assert_eq!(bytes, plain);
            let (access, read) = parse(Edition::Fourth, &bytes);
            assert_eq!(access, Access::Read { register: 1281 });
            assert_eq!(pairs(&read.pos, &read.neg), pairs(&lent.pos, &lent.neg));
            assert_eq!((read.word, read.answers), (lent.word, 0));
            let four = lent.receive.map(|pairs| LinePairs {
                pos: pairs.pos & 15,
                neg: pairs.neg & 15,
            });
            assert_eq!(read.receive, four);
        }
    }
}

#[test]
fn a_written_tick_is_the_lent_tick() {
    let mut numbers = Numbers(23);
    let mut lent = ready(248, 0x393D);
    for alert in &mut lent.alerts {
        alert.regwen = 0;
    }
    (lent.timer.enable, lent.timer.timeout) = (1, 5);
    let mut replayed = lent.clone();
    let access = Access::Read { register: 1281 };
    for _ in 0..500 {
        // With all its places as they come.
        let mut sample = numbers.sample();
        sample.word = numbers.next() as u32 & 0xFF_0003;
        sample.receive = Some(receive(&mut numbers));
        let mut out = [0];
        let bytes = written(sample);
        assert_eq!(batch(&mut replayed, Edition::Fourth, &bytes, &mut out), 0);
        assert_eq!(unpack(out[0]), tick(&mut lent, access, sample).outcome());
        assert_eq!(lent, replayed);
    }
}
