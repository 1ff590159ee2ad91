//! Records of all editions, their words, and batches.

mod common;

use common::escalation::right;
use common::records::{pack, record, renumbered, unpack, EDITIONS};
use common::{new, ready, sampled, with, Numbers, ALERT0, COUNTS, PAUSE, REST};
use reference::trace::parse;
use reference::{batch, Access, Edition, Handler, LinePairs, Place, Sample};

/// What a record of the edition has of a sample's wires.
fn wires_in(edition: Edition, mut sample: Sample) -> Sample {
    if edition != Edition::Fourth {
        sample.receive = None;
    }
    for set in [&mut sample.pos, &mut sample.neg] {
        match edition {
            Edition::First => set[1..].fill(0),
            _ => set[3] &= !0xFF,
        }
    }
    sample
}

// Records

#[test]
fn sizes() {
    for (edition, bytes, alerts) in [
        (Edition::First, 24, 64),
        (Edition::Second, 70, 248),
        (Edition::Third, 75, 248),
        (Edition::Fourth, 75, 248),
    ] {
        assert_eq!((edition.bytes(), edition.alerts()), (bytes, alerts));
        let (third, fourth) = (edition == Edition::Third, edition == Edition::Fourth);
        assert_eq!(edition.has_word(), third || fourth);
        assert_eq!(edition.has_pairs(), fourth);
        let word = if edition.has_word() { 5 } else { 0 };
        assert_eq!(8 + 2 * edition.wire_bytes() + word, bytes);
        assert_eq!(2 + edition.register_bits() + edition.zero_bits(), 32);
        assert_eq!(pack(edition, 0, 0, REST).len(), bytes);
    }
}

/// A row's first 32 bits, its value and its access.
type Row = (u32, u32, Access);

fn check_rows(edition: Edition, rows: &[Row]) {
    let mut numbers = Numbers(5);
    for (head, value, access) in rows {
        let mut sample = numbers.sample();
        if edition.has_word() {
            sample.word = numbers.next() as u32;
        }
        match edition {
            Edition::Third => sample.answers = numbers.below(16) as u8,
            _ => {
                sample.receive = Some(LinePairs {
                    pos: numbers.below(16) as u8,
                    neg: numbers.below(16) as u8,
                })
            }
        }
        let expected = wires_in(edition, sample);
        let parsed = parse(edition, &pack(edition, *head, *value, sample));
        assert_eq!(parsed, (*access, expected), "{head:#x}");
    }
}

#[test]
fn first_records_apart() {
    let read = |register| Access::Read { register };
    let write = |register, value| Access::Write { register, value };
    check_rows(
        Edition::First,
        &[
            (0, 0, Access::None),
            (0x5410_0000, 0, read(1281)),
            (0x8000_0000, 0, write(0, 0)),
            (0x8400_0000, 1, write(256, 1)),
            // 1023, unassigned then.
            (0xBFF0_0000, 9, write(2047, 9)),
            (0x0010_0000, 0, Access::Malformed),
            // Unassigned then, but still a register where none may be.
            (0x3FF0_0000, 0, Access::Malformed),
            (0, 1, Access::Malformed),
            (0x5410_0000, 1, Access::Malformed),
            (0x5410_0001, 0, Access::Malformed),
            (0x8008_0000, 0, Access::Malformed),
            (0x0000_0001, 0, Access::Malformed),
            (0xC000_0000, 0, Access::Malformed),
        ],
    );
}

#[test]
fn later_records_apart() {
    let read = |register| Access::Read { register };
    let write = |register, value| Access::Write { register, value };
    for edition in [Edition::Second, Edition::Third, Edition::Fourth] {
        let rows = [
            (0, 0, Access::None),
            (0x6808_0000, 0, read(1281)),
            (0x4008_0000, 0, read(1)),
            (0x6000_0000, 0, read(1024)),
            (0x8000_0000, 0, write(0, 0)),
            (0x8800_0000, 1, write(256, 1)),
            (0xBFF8_0000, 9, write(2047, 9)),
            (0xBFF8_0000, u32::MAX, write(2047, u32::MAX)),
            (0x0008_0000, 0, Access::Malformed),
            (0x2000_0000, 0, Access::Malformed),
            (0, 1, Access::Malformed),
            (0x6808_0000, 1, Access::Malformed),
            (0x6808_0001, 0, Access::Malformed),
            (0x8004_0000, 0, Access::Malformed),
            (0x0004_0000, 0, Access::Malformed),
            (0x0000_0001, 0, Access::Malformed),
            (0xC000_0000, 0, Access::Malformed),
            (0xFFF8_0000, 9, Access::Malformed),
            // The ping timer's 4, where no register may be.
            (0x0020_0000, 0, Access::Malformed),
        ];
        check_rows(edition, &rows);
    }
}

#[test]
fn the_ping_timers_numbers_apart() {
    for number in 3..=7u16 {
        let old = match number {
            4..=6 => 2047,
            _ => number,
        };
        let (first, second) = (u32::from(number) << 20, u32::from(number) << 19);
        for (edition, head, register) in [
            (Edition::First, first, 2047),
            (Edition::Second, second, old),
            (Edition::Third, second, number),
            (Edition::Fourth, second, number),
        ] {
            let rows = [
                (0x4000_0000 | head, 0, Access::Read { register }),
                (0x8000_0000 | head, 1, Access::Write { register, value: 1 }),
            ];
            check_rows(edition, &rows);
        }
    }
}

#[test]
fn every_zero_bit_must_be_zero() {
    for (edition, zeros) in EDITIONS.into_iter().zip([20, 19, 19, 19]) {
        for kind in 0..4u32 {
            for bit in 0..zeros {
                let bytes = pack(edition, (kind << 30) | (1 << bit), 0, REST);
                assert_eq!(parse(edition, &bytes).0, Access::Malformed);
            }
            // The next bit is the register's lowest.
            let bytes = pack(edition, (kind << 30) | (1 << zeros), 0, REST);
            let malformed = parse(edition, &bytes).0 == Access::Malformed;
            assert_eq!(malformed, kind == 0 || kind == 3);
        }
    }
}

// Wires

#[test]
fn each_wire_is_one_alerts() {
    for edition in EDITIONS {
        let n = edition.alerts();
        let mut h = ready(n as u64, 0x393C);
        for i in 0..n {
            let raised = record(edition, Access::None, with(REST, i, (1, 0)));
            let mut out = [0];
            assert_eq!(batch(&mut h, edition, &raised, &mut out), 0);
            for (at, alert) in h.alerts.iter_mut().enumerate() {
                assert_eq!(alert.cause, u8::from(at == i), "alert {at}, wire {i}");
                alert.cause = 0;
            }
            for (at, receiver) in h.receivers.iter().enumerate() {
                let taken = receiver.place == Place::Acknowledged;
                assert_eq!(taken, at == i);
                assert_eq!(receiver.place == Place::Ready, at != i);
            }
            let rest = record(edition, Access::None, REST).repeat(PAUSE);
            assert_eq!(batch(&mut h, edition, &rest, &mut [0; PAUSE]), 0);
        }
    }
}

#[test]
fn equal_wires_at_the_last_alert_and_the_next() {
    for edition in EDITIONS {
        for n in COUNTS {
            if n > edition.alerts() as u64 {
                continue;
            }
            for pair in [(0, 0), (1, 1)] {
                for i in [n as usize - 1, n as usize] {
                    let mut h = ready(n, 0x393D);
                    h.locals[2].en = 1;
                    let bytes = record(edition, Access::None, with(REST, i, pair));
                    assert_eq!(batch(&mut h, edition, &bytes, &mut [0]), 0);
                    let expected = u8::from(i < n as usize);
                    assert_eq!(h.locals[2].cause, expected, "N {n}, wire {i}");
                    assert_eq!(h.intr_state, expected);
                }
            }
        }
    }
}

// Batches

#[test]
fn batches() {
    for edition in EDITIONS {
        let size = edition.bytes();
        let cause = match edition {
            Edition::First => 256,
            _ => 1024,
        };
        let mut h = ready(1, 0x393D);
        let mut bytes = record(edition, Access::Malformed, ALERT0);
        bytes.extend(record(edition, Access::Read { register: cause }, REST));
        let mut out = [11; 3];
        let before = h.clone();
        for length in [1, size - 1, size + 1, 2 * size - 1] {
            // 8 comes before 9.
            assert_eq!(batch(&mut h, edition, &bytes[..length], &mut []), -8);
            assert_eq!(batch(&mut h, edition, &bytes[..length], &mut out), -8);
        }
        assert_eq!(batch(&mut h, edition, &bytes, &mut out[..1]), -9);
        assert_eq!(batch(&mut h, edition, &bytes[..size], &mut []), -9);
        assert_eq!(batch(&mut h, edition, &[], &mut []), 0);
        assert_eq!((&h, out), (&before, [11; 3]));
        assert_eq!(batch(&mut h, edition, &bytes, &mut out), 0);
        assert_eq!(out, [0x0850_0000_0000_0000, 0x0400_0000_0000_0001, 11]);
    }
}

#[test]
fn the_length_is_the_editions_own() {
    let mut h = new(1);
    let bytes = [0; 24 * 70];
    let mut out = [0; 70];
    assert_eq!(batch(&mut h, Edition::Third, &bytes[..70], &mut out), -8);
    assert_eq!(batch(&mut h, Edition::Second, &bytes[..75], &mut out), -8);
    assert_eq!(batch(&mut h, Edition::Third, &bytes[..75], &mut out), 0);
    assert_eq!(batch(&mut h, Edition::Third, &bytes[..150], &mut [0]), -9);
    assert_eq!(batch(&mut h, Edition::Fourth, &bytes[..70], &mut out), -8);
    assert_eq!(batch(&mut h, Edition::Fourth, &bytes[..75], &mut out), 0);
    assert_eq!(batch(&mut h, Edition::Fourth, &bytes[..150], &mut [0]), -9);
    assert_eq!(batch(&mut h, Edition::First, &bytes[..70], &mut out), -8);
    assert_eq!(batch(&mut h, Edition::Second, &bytes[..24], &mut out), -8);
    // Both lengths divide this one, which is 70 old records or 24 new.
    assert_eq!(batch(&mut h, Edition::First, &bytes, &mut out[..69]), -9);
    assert_eq!(batch(&mut h, Edition::First, &bytes, &mut out), 0);
    assert_eq!(batch(&mut h, Edition::Second, &bytes, &mut out[..23]), -9);
    assert_eq!(batch(&mut h, Edition::Second, &bytes, &mut out[..24]), 0);
}

#[test]
fn a_first_batch_is_refused_by_more_than_64_alerts() {
    let bytes = [0; 48];
    for n in [65, 127, 128, 191, 192, 247, 248] {
        let mut h = ready(n, 0x393D);
        let before = h.clone();
        assert!(h.valid());
        let mut out = [11; 3];
        // Before 8 and 9, and with no bytes too.
        for length in [0, 1, 23, 24, 25, 48] {
            for room in 0..=3 {
                let answer = batch(&mut h, Edition::First, &bytes[..length], &mut out[..room]);
                assert_eq!(answer, -7, "N {n}, {length} bytes, {room} words");
            }
        }
        assert_eq!((&h, out), (&before, [11; 3]));
        // The same state takes ticks and a batch of a later edition.
        assert_eq!(batch(&mut h, Edition::Second, &[], &mut []), 0);
        assert_eq!(batch(&mut h, Edition::Second, &[0; 70], &mut out), 0);
        assert_eq!(batch(&mut h, Edition::Third, &[0; 75], &mut out), 0);
        assert_eq!(batch(&mut h, Edition::Fourth, &[0; 75], &mut out), 0);
        assert_eq!(h.tick(Access::None, &REST).answer, 0);
    }
    for n in [1, 63, 64] {
        assert_eq!(batch(&mut new(n), Edition::First, &bytes, &mut [0; 2]), 0);
    }
}

// The same words

/// Fields of a record that reach far: mostly registers of the first map.
fn fields(numbers: &mut Numbers) -> (Access, Sample) {
    let register = match numbers.below(8) {
        0 => numbers.below(1024) as u16,
        1 => 128 + numbers.below(64) as u16,
        2 | 3 => 320 + numbers.below(64) as u16,
        _ => numbers.below(384) as u16,
    };
    let value = [0, 1, 3, 0x393D, numbers.next() as u32][numbers.below(5) as usize];
    let access = match numbers.below(16) {
        0 => Access::Malformed,
        1..=4 => Access::None,
        5..=8 => Access::Read { register },
        _ => Access::Write { register, value },
    };
    let positive: [u64; 4] = std::array::from_fn(|_| numbers.next() & numbers.next());
    let mut negative = positive.map(|word| !word);
    if numbers.below(4) == 0 {
        negative[0] ^= 1 << numbers.below(64);
    }
    (access, sampled(positive, negative))
}

/// The access with its number carried by hand; 333 and the like, unassigned
/// in both maps, may stand for any number that was unassigned then.
fn carried_by_hand(access: Access) -> Access {
    let number = |old| renumbered(old).unwrap_or(1293);
    match access {
        Access::Read { register } => Access::Read {
            register: number(register),
        },
        Access::Write { register, value } => Access::Write {
            register: number(register),
            value,
        },
        other => other,
    }
}

#[test]
fn all_editions_give_the_same_words_and_states() {
    let mut numbers = Numbers(8);
    for n in [1, 2, 31, 63, 64] {
        let mut handlers: [Handler; 4] = [new(n), new(n), new(n), new(n)];
        // Runs ahead, to know what sound receivers answer.
        let mut ahead = new(n);
        let (mut access, mut sample) = fields(&mut numbers);
        for _ in 0..400 {
            let mut bytes = [Vec::new(), Vec::new(), Vec::new(), Vec::new()];
            for _ in 0..20 {
                // As often again, since a shadowed register takes two writes.
                if numbers.below(2) == 0 {
                    (access, sample) = fields(&mut numbers);
                }
                let carried = carried_by_hand(access);
                let accesses = [access, carried, carried, carried];
                sample.receive = Some(right(&ahead));
                ahead.tick(carried, &sample);
                for (at, edition) in EDITIONS.into_iter().enumerate() {
                    bytes[at].extend(record(edition, accesses[at], sample));
                }
            }
            let mut out = [[0; 20]; 4];
            for (at, edition) in EDITIONS.into_iter().enumerate() {
                let answer = batch(&mut handlers[at], edition, &bytes[at], &mut out[at]);
                assert_eq!(answer, 0);
            }
            for at in 1..4 {
                assert_eq!(out[0].map(unpack), out[at].map(unpack));
                assert_eq!(handlers[0], handlers[at]);
            }
            assert_eq!(handlers[0], ahead);
        }
    }
}
