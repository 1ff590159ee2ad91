//! The writer's wrapper hands over each part of each input, and what it is refused.
use handler::{record, Access, Answer, Edition, Input, LinePairs, Refusal, Sample, Wires, WORDS};
use harness::record::{pack, Head, Side, Tail, NONE};

const EDITION: Edition = Edition::NEWEST;
const RECORD: usize = EDITION.bytes();

/// Wires in which every word differs. Places 248 to 255 are 0, as the packed record has them.
const SOME: [u64; WORDS] = [
    0x0123_4567_89AB_CDEF,
    0x0011_2233_4455_6677,
    0x8899_AABB_CCDD_EEFF,
    0xFEDC_BA98_7654_3200,
];
const ALL: [u64; WORDS] = [u64::MAX; WORDS];
const NO: [u64; WORDS] = [0; WORDS];

/// The bytes of an access with these wires, the receive pairs at rest.
fn packed(kind: u8, register: u16, value: u32, wires: (Side, Side)) -> Vec<u8> {
    let head = Head::new(kind, register, value);
    pack(EDITION, head, wires, Tail::wired(0, LinePairs::REST))
}

fn input(access: Access, pos: [u64; WORDS], neg: [u64; WORDS]) -> Input {
    let sample = Sample::of(Wires { pos, neg });
    Input::new(access, sample)
}

#[test]
fn a_record_for_each_input() {
    let inputs = [
        input(Access::Nothing, SOME, NO),
        input(Access::Read(2047), NO, SOME),
        input(Access::Write(1345, u32::MAX), ALL, NO),
        input(Access::Write(0, 1), NO, ALL),
    ];
    let mut wanted = [
        packed(0, 0, 0, (SOME, NO)),
        packed(1, 2047, 0, (NO, SOME)),
        packed(2, 1345, 0xFFFF_FFFF, (ALL, NO)),
        packed(2, 0, 1, (NO, ALL)),
    ]
    .concat();
    wanted.extend([7; 5]);
    let mut out = vec![7; 4 * RECORD + 5];
    assert_eq!(record(&inputs, &mut out).bytes(), Ok(4 * RECORD));
    assert_eq!(out, wanted);
}

#[test]
fn words_and_receive_pairs_stand_behind_the_wires() {
    for bits in 0..1024 {
        let (pos, neg) = (bits & 31, bits >> 5);
        let sample = Sample {
            alerts: Wires { pos: SOME, neg: NO },
            word: 0x89AB_CDEF,
            receive: LinePairs { pos, neg },
        };
        let access = Access::Nothing;
        let mut out = [7; RECORD];
        assert_eq!(
            record(&[Input::new(access, sample)], &mut out).bytes(),
            Ok(RECORD)
        );
        let tail = Tail::wired(0x89AB_CDEF, sample.receive);
        let head = Head::new(NONE, 0, 0);
        assert_eq!(out[..], pack(EDITION, head, (SOME, NO), tail)[..]);
        assert_eq!(out[70..74], [0x89, 0xAB, 0xCD, 0xEF]);
        assert_eq!(out[74], sample.receive.byte());
    }
}

#[test]
fn places_past_the_wires_are_left_out() {
    let mut other = SOME;
    other[WORDS - 1] |= 255;
    let mut out = [[7; RECORD]; 2];
    for (out, wires) in out.iter_mut().zip([SOME, other]) {
        let inputs = [input(Access::Nothing, wires, wires)];
        assert_eq!(record(&inputs, out).bytes(), Ok(RECORD));
    }
    assert_eq!(out[0], out[1]);
}

#[test]
fn no_inputs_no_bytes() {
    let mut out = [7; 3];
    assert_eq!(record(&[], &mut out), Answer(0));
    assert_eq!(record(&[], &mut []), Answer(0));
    assert_eq!(out, [7; 3]);
}

#[test]
fn a_refusal_leaves_the_buffer() {
    let good = input(Access::Read(2047), NO, NO);
    for bad in [
        Access::Read(2048),
        Access::Write(u16::MAX, 0),
        Access::Malformed,
    ] {
        let inputs = [good, input(bad, NO, NO)];
        for length in [0, 2 * RECORD] {
            let mut out = vec![7; length];
            let answer = record(&inputs, &mut out);
            assert_eq!(answer.bytes(), Err(Refusal::NO_RECORD));
            assert_eq!(out, vec![7; length]);
        }
    }
    let mut out = [7; 2 * RECORD - 1];
    let answer = record(&[good, good], &mut out);
    assert_eq!(answer.bytes(), Err(Refusal::SHORT_BUFFER));
    assert_eq!(out, [7; 2 * RECORD - 1]);
}
