//! Records with words and answers, and older batches beside a timer that is
//! on.

mod common;

use common::records::{pack, record, unpack, EDITIONS};
use common::timer::{alert_due, answering, drawing, entropy, line_due};
use common::{new, ready, tick, write, Numbers, ALERT0, REST};
use reference::trace::parse;
use reference::{batch, Access, Edition, Handler, Sample, Timer};

/// A record of the third edition with these last five bytes.
fn ending(access: Access, last: [u8; 5]) -> Vec<u8> {
    let mut bytes = record(Edition::Third, access, REST);
    bytes[70..].copy_from_slice(&last);
    bytes
}

// Records

#[test]
fn the_word_and_the_answers_have_their_bits() {
    for (last, word, answers) in [
        ([0, 0, 0, 0, 0], 0, 0),
        ([0x12, 0x34, 0x56, 0x78, 0], 0x1234_5678, 0),
        ([0x80, 0, 0, 0, 0], 1 << 31, 0),
        ([0, 0, 0, 1, 0], 1, 0),
        // Line 0's answer bit comes first.
        ([0, 0, 0, 0, 8], 0, 1),
        ([0, 0, 0, 0, 4], 0, 2),
        ([0, 0, 0, 0, 2], 0, 4),
        ([0, 0, 0, 0, 1], 0, 8),
        ([255, 255, 255, 255, 15], u32::MAX, 15),
    ] {
        let (access, sample) = parse(Edition::Third, &ending(Access::None, last));
        assert_eq!(access, Access::None);
        assert_eq!((sample.word, sample.answers), (word, answers));
    }
}

#[test]
fn older_records_give_the_word_0_and_no_answer() {
    for edition in [Edition::First, Edition::Second] {
        let bytes = vec![0xFF; edition.bytes()];
        let (_, sample) = parse(edition, &bytes);
        assert_eq!((sample.word, sample.answers), (0, 0));
    }
}

#[test]
fn each_of_the_four_zero_bits_must_be_zero() {
    let read = Access::Read { register: 1 };
    let write = Access::Write {
        register: 1,
        value: 9,
    };
    for access in [Access::None, read, write] {
        for last in 0..=255u8 {
            let bytes = ending(access, [0, 0, 1, 2, last]);
            let (parsed, sample) = parse(Edition::Third, &bytes);
            let malformed = last >= 16;
            assert_eq!(parsed == Access::Malformed, malformed, "{last:#x}");
            assert!(malformed || parsed == access);
            // The word and the answers act as they do in a sound record.
            assert_eq!(sample.word, 0x102);
            assert_eq!(sample.answers, last.reverse_bits() >> 4);
            let mut h = new(1);
            let mut out = [0];
            assert_eq!(batch(&mut h, Edition::Third, &bytes, &mut out), 0);
            let answer = if malformed { -5 } else { 0 };
            assert_eq!(unpack(out[0]).answer, answer);
            let written = access == write && !malformed;
            assert_eq!(h.intr_enable, if written { 9 } else { 0 });
        }
    }
}

#[test]
fn a_malformed_record_answers_and_draws() {
    // Malformed by its zero bits, by its kind, and by both.
    let heads = [(0, 0x10), (3 << 30, 0), (3 << 30, 0xF0)];
    for (head, zeros) in heads {
        for e in 0..4 {
            let mut h = new(1);
            h.timer = line_due(e);
            h.timer.number += 8;
            let sample = drawing(answering(ALERT0, 1 << e), entropy(700, 77));
            let mut bytes = pack(Edition::Third, head, 0, sample);
            bytes[74] |= zeros;
            let mut out = [0];
            assert_eq!(batch(&mut h, Edition::Third, &bytes, &mut out), 0);
            assert_eq!(out[0], 0x0050_0000_0000_0000);
            let expected = Timer {
                enable: 1,
                number: 2 * e + 10,
                alert: 77,
                count: 700,
                ..Timer::new()
            };
            assert_eq!(h.timer, expected);
        }
    }
}

#[test]
fn a_record_switches_the_timer_on_with_its_word() {
    let access = Access::Write {
        register: 6,
        value: 1,
    };
    let bytes = ending(access, [0xAB, 0x12, 0x34, 0x56, 0]);
    let mut h = new(1);
    assert_eq!(batch(&mut h, Edition::Third, &bytes, &mut [0]), 0);
    let expected = Timer {
        enable: 1,
        alert: 0x12,
        count: 0x3456,
        ..Timer::new()
    };
    assert_eq!(h.timer, expected);
}

// Older batches

#[test]
fn an_older_batch_is_refused_where_the_timer_is_on() {
    let mut open = ready(2, 0x393D);
    (open.timer, open.receivers[1].open) = (alert_due(1), true);
    let mut on = new(64);
    assert_eq!(write(&mut on, 6, 1), 0);
    let mut none = Handler::new(0).0;
    none.timer.enable = 1;
    let mut line = new(1);
    (line.timer, line.timer.lines) = (line_due(3), 8);
    for start in [open, on, none, line] {
        assert!(start.valid());
        for edition in [Edition::First, Edition::Second] {
            let size = edition.bytes();
            let (mut h, mut out) = (start.clone(), [11; 3]);
            // Before 8 and 9, and with no bytes too.
            for length in [0, 1, size - 1, size, size + 1, 2 * size] {
                for room in 0..=3 {
                    let bytes = vec![0; length];
                    let answer = batch(&mut h, edition, &bytes, &mut out[..room]);
                    assert_eq!(answer, -7, "{edition:?}, {length}, {room}");
                }
            }
            assert_eq!((&h, out), (&start, [11; 3]));
        }
        // Those with words take it, and ticks go on.
        for edition in [Edition::Third, Edition::Fourth] {
            let mut h = start.clone();
            let mut out = [0];
            assert_eq!(batch(&mut h, edition, &[], &mut []), 0);
            assert_eq!(batch(&mut h, edition, &[0; 74], &mut out), -8);
            assert_eq!(batch(&mut h, edition, &[0; 75], &mut []), -9);
            assert_eq!(h, start);
            assert_eq!(batch(&mut h, edition, &[0; 75], &mut out), 0);
            assert_eq!(tick(&mut h, Access::None, REST).answer, 0);
        }
    }
}

#[test]
fn a_timer_that_is_off_refuses_no_batch() {
    for edition in EDITIONS {
        // Locked, with a timeout, a stage and whatever else it holds.
        let mut h = new(64);
        h.timer = Timer {
            regwen: 0,
            enable: 0,
            timeout: 9,
            stage: 4,
            number: 7,
            alert: 3,
            count: 2,
            lines: 0xF0,
            wrong: true,
        };
        let before = h.clone();
        let bytes = record(edition, Access::None, REST).repeat(9);
        assert_eq!(batch(&mut h, edition, &bytes, &mut [0; 9]), 0);
        assert_eq!(h, before);
    }
}

// Batches and ticks

/// An access that often moves the timer.
fn access(numbers: &mut Numbers) -> Access {
    let register = [4, 5, 5, 5, 6, 256, 257, 512, 513, 40, 41][numbers.below(11) as usize];
    let value = numbers.below(3) as u32;
    match numbers.below(8) {
        0 => Access::Malformed,
        1 | 2 => Access::Read { register },
        3 | 4 => Access::None,
        // Most locks only now and then, as no tick takes them back.
        _ if register == 4 && numbers.below(20) != 0 => Access::None,
        _ => Access::Write { register, value },
    }
}

fn sample(numbers: &mut Numbers) -> Sample {
    let mut sample = REST;
    sample.pos[0] = numbers.next() & numbers.next();
    sample.neg[0] = !sample.pos[0];
    sample.word = numbers.next() as u32 & 0xFF01_0003;
    answering(sample, (numbers.next() & numbers.next()) as u8 & 15)
}

#[test]
fn a_batch_is_its_ticks() {
    let mut numbers = Numbers(91);
    let mut turns = 0;
    for _ in 0..300 {
        let mut ticked = ready(2, 0x393D);
        for local in &mut ticked.locals {
            local.en = 1;
        }
        let mut batched = ticked.clone();
        for _ in 0..10 {
            let (mut bytes, mut expected) = (Vec::new(), Vec::new());
            for _ in 0..numbers.below(20) {
                let (access, sample) = (access(&mut numbers), sample(&mut numbers));
                bytes.extend(record(Edition::Third, access, sample));
                expected.push(ticked.tick(access, &sample).outcome());
            }
            let mut out = vec![0; expected.len()];
            assert_eq!(batch(&mut batched, Edition::Third, &bytes, &mut out), 0);
            let words: Vec<_> = out.into_iter().map(unpack).collect();
            assert_eq!((words, &batched), (expected, &ticked));
            assert!(batched.valid());
        }
        turns += u32::from(batched.timer.number);
    }
    assert!(turns > 1000, "{turns}");
}
