//! Escalation wires in records: the fourth edition's last byte, and batches of
//! all editions.

mod common;

use common::driven::{driven, due};
use common::escalation::{receiving, sound};
use common::records::{pack, pairs, record, unpack, EDITIONS};
use common::timer::{answering, drawing, entropy, line_due};
use common::{new, ready, Numbers, ALERT0, REST};
use reference::trace::parse;
use reference::{batch, Access, Edition, Handler, LinePairs, Sample};

// Records

#[test]
fn the_last_byte_is_four_pairs_line_0_and_positive_first() {
    for (byte, pos, neg) in [
        (0x00, 0, 0),
        (0x55, 0, 15),
        (0xAA, 15, 0),
        (0xFF, 15, 15),
        (0x80, 1, 0),
        (0x40, 0, 1),
        (0x20, 2, 0),
        (0x10, 0, 2),
        (0x08, 4, 0),
        (0x04, 0, 4),
        (0x02, 8, 0),
        (0x01, 0, 8),
    ] {
        let read = LinePairs::from_byte(byte);
        assert_eq!(read, LinePairs { pos, neg });
        assert_eq!(read.to_byte(), byte);
    }
    for byte in 0..=255 {
        let read = LinePairs::from_byte(byte);
        assert_eq!((read.to_byte(), pairs(read)), (byte, byte));
        // No byte is malformed.
        let mut bytes = record(Edition::Fourth, Access::None, REST);
        bytes[70..].copy_from_slice(&[1, 2, 3, 4, byte]);
        let (access, sample) = parse(Edition::Fourth, &bytes);
        assert_eq!((access, sample.word), (Access::None, 0x0102_0304));
        assert_eq!((sample.receive, sample.answers), (Some(read), 0));
        for high in [0x10, 0xF0] {
            let (pos, neg) = (read.pos | high, read.neg | high);
            assert_eq!(LinePairs { pos, neg }.to_byte(), byte);
        }
    }
}

#[test]
fn older_records_have_no_pairs() {
    for edition in [Edition::First, Edition::Second, Edition::Third] {
        for byte in [0, 0x55, 0xFF] {
            let (_, sample) = parse(edition, &vec![byte; edition.bytes()]);
            assert_eq!(sample.receive, None);
        }
    }
}

#[test]
fn a_malformed_record_is_checked_and_answers() {
    let mut h = driven();
    let sample = receiving(REST, LinePairs { pos: 0, neg: 0 });
    let bytes = pack(Edition::Fourth, 3 << 30, 0, sample);
    let mut out = [0];
    assert_eq!(batch(&mut h, Edition::Fourth, &bytes, &mut out), 0);
    assert_eq!((out[0], h.locals[3].cause), (0x0050_0000_0000_0000, 1));
    // All the answers of a ping in malformed records.
    let mut h = due(1, 4);
    for _ in 0..5 {
        let sample = drawing(sound(&h), entropy(9, 9));
        let bytes = pack(Edition::Fourth, 3 << 30, 0, sample);
        assert_eq!(batch(&mut h, Edition::Fourth, &bytes, &mut out), 0);
    }
    assert_eq!((h.timer.number, h.timer.count), (4, 9));
    assert_eq!((h.locals[1].cause, h.locals[3].cause), (0, 0));
}

// Batches

/// An access and a sample for a handler that stands so: mostly right answers,
/// and a clear of class 0 now and then.
fn fields(numbers: &mut Numbers, edition: Edition, h: &Handler) -> (Access, Sample) {
    let mut sample = drawing(sound(h), numbers.next() as u32 & 0xFF01_0003);
    match edition {
        Edition::Third => sample = answering(sample, numbers.below(16) as u8),
        _ if numbers.below(9) == 0 => {
            sample.receive = Some(LinePairs::from_byte(numbers.next() as u8))
        }
        _ => {}
    }
    let clear = Access::Write {
        register: 1283,
        value: 1,
    };
    match numbers.below(7) {
        0 => (clear, sample),
        1 => (Access::Malformed, sample),
        _ => (Access::None, sample),
    }
}

#[test]
fn a_batch_is_its_ticks() {
    let mut numbers = Numbers(95);
    let mut turns = 0;
    for round in 0..200 {
        let edition = [Edition::Third, Edition::Fourth][round % 2];
        let mut ticked = ready(2, 0x393D);
        for local in &mut ticked.locals {
            local.en = 1;
        }
        (ticked.timer.enable, ticked.timer.timeout) = (1, numbers.below(6) as u16);
        let mut batched = ticked.clone();
        let (mut bytes, mut expected) = (Vec::new(), Vec::new());
        for _ in 0..80 {
            let (access, sample) = fields(&mut numbers, edition, &ticked);
            bytes.extend(record(edition, access, sample));
            expected.push(ticked.tick(access, &sample).outcome());
        }
        let mut out = vec![0; expected.len()];
        assert_eq!(batch(&mut batched, edition, &bytes, &mut out), 0);
        let words: Vec<_> = out.into_iter().map(unpack).collect();
        assert_eq!((words, &batched), (expected, &ticked));
        turns += u32::from(batched.timer.number);
    }
    assert!(turns > 1000, "{turns}");
}

#[test]
fn where_the_timer_is_on_the_two_oldest_answer_7() {
    let mut h = new(1);
    h.timer = line_due(0);
    for (edition, answer) in EDITIONS.into_iter().zip([-7, -7, 0, 0]) {
        let mut h = h.clone();
        assert_eq!(batch(&mut h, edition, &[], &mut []), answer);
        let bytes = record(edition, Access::None, REST);
        assert_eq!(batch(&mut h, edition, &bytes, &mut [0]), answer);
    }
}

#[test]
fn older_batches_check_nothing_and_senders_send() {
    for edition in [Edition::First, Edition::Second, Edition::Third] {
        let mut h = ready(1, 0x393D);
        h.classes[0].phase_cyc = [3, 1, 1, 1];
        h.locals[3].en = 1;
        let bytes = record(edition, Access::None, ALERT0);
        assert_eq!(batch(&mut h, edition, &bytes, &mut [0]), 0);
        let sender = h.senders[0];
        assert_eq!((sender.on, sender.first), (true, true));
        assert_eq!((sender.sent(), sender.expected()), (true, true));
        // Nobody answers, and that is no fault.
        let bytes = record(edition, Access::None, REST);
        assert_eq!(batch(&mut h, edition, &bytes, &mut [0]), 0);
        assert_eq!((h.locals[3].cause, h.senders[0].expected()), (0, false));
        // The newest edition goes on from there: (0,1) is right in this tick
        // and wrong in the next.
        for cause in [0, 1] {
            let bytes = record(Edition::Fourth, Access::None, REST);
            assert_eq!(batch(&mut h, Edition::Fourth, &bytes, &mut [0]), 0);
            assert_eq!(h.locals[3].cause, cause, "{edition:?}");
        }
    }
}
