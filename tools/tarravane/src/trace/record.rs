//! The bytes of a record, and what they hold. The proved writer gives those of the newest edition; records of an older one are
//! packed here, in plain Rust. What is read of a record is for showing only: the library judges it.
use handler::{Access, Edition, Input, LinePairs, Refusal, Sample, Wires, WORDS};

/// The words of the wires; at places that the edition has no wires for, those at rest.
fn words(bytes: &[u8], rest: u8) -> [u64; WORDS] {
    let mut all = [[rest; 8]; WORDS];
    for (to, from) in all.iter_mut().flatten().zip(bytes) {
        *to = *from;
    }
    all.map(u64::from_be_bytes)
}

/// What stands behind the wires.
#[derive(Clone, Copy, PartialEq, Eq)]
struct Tail {
    /// The entropy word.
    word: u32,
    receive: LinePairs,
    /// The lines that answer their ping, line 0 at the lowest bit.
    answers: u32,
}

impl Tail {
    /// That of a record which has none.
    const NONE: Tail = Tail {
        word: 0,
        receive: LinePairs::REST,
        answers: 0,
    };

    fn of(input: &Input) -> Tail {
        Tail {
            word: input.sample.word,
            // Bits from 4 up are no line's.
            receive: LinePairs::of_byte(input.sample.receive.byte()),
            answers: input.answers & 15,
        }
    }

    /// The last byte is the receive pairs' or, in an older record, the answers', line 0 at the highest of its last four bits.
    fn read(edition: Edition, bytes: &[u8]) -> Tail {
        let (word, last) = match *bytes {
            [a, b, c, d, last] => (u32::from_be_bytes([a, b, c, d]), last),
            _ => return Tail::NONE,
        };
        match edition.has_receive() {
            true => Tail {
                word,
                receive: LinePairs::of_byte(last),
                ..Tail::NONE
            },
            false => Tail {
                word,
                answers: u32::from(last << 4).reverse_bits() >> 24,
                ..Tail::NONE
            },
        }
    }

    /// Its bytes; none where the edition does not hold it.
    fn bytes(self, edition: Edition) -> Option<Vec<u8>> {
        let last = match edition.has_receive() {
            true => self.receive.byte(),
            false => (self.answers as u8).reverse_bits() >> 4,
        };
        let [a, b, c, d] = self.word.to_be_bytes();
        let bytes = [a, b, c, d, last][..edition.tail_bytes()].to_vec();
        (Tail::read(edition, &bytes) == self).then_some(bytes)
    }
}

/// What a record's bits hold where it is well-formed; of a malformed one a part is lost. The register has the edition's number.
pub fn input(edition: Edition, record: &[u8]) -> Input {
    let (first, wires) = record.split_at(8);
    let (pos, rest) = wires.split_at(edition.wire_bytes());
    let (neg, rest) = rest.split_at(edition.wire_bytes());
    let first = first.iter().fold(0, |all, b| all << 8 | u64::from(*b));
    let register = (first << 2 >> (64 - edition.register_bits())) as u16;
    let access = match first >> 62 {
        0 => Access::Nothing,
        1 => Access::Read(register),
        2 => Access::Write(register, first as u32),
        _ => Access::Malformed,
    };
    let (pos, neg) = (words(pos, 0), words(neg, 255));
    let tail = Tail::read(edition, rest);
    Input {
        access,
        sample: Sample {
            alerts: Wires { pos, neg },
            word: tail.word,
            receive: tail.receive,
        },
        answers: tail.answers,
    }
}

/// The record that holds the input; none where no well-formed one does.
fn packed(edition: Edition, input: &Input) -> Option<Vec<u8>> {
    let (kind, register, value) = match input.access {
        Access::Nothing => (0, 0, 0),
        Access::Read(register) => (1, register, 0),
        Access::Write(register, value) => (2, register, value),
        Access::Malformed => return None,
    };
    let bits = edition.register_bits();
    let tail = Tail::of(input).bytes(edition)?;
    if register >> bits != 0 {
        return None;
    }
    let first = kind << 62 | u64::from(register) << (62 - bits) | u64::from(value);
    let mut record = first.to_be_bytes().to_vec();
    let Wires { pos, neg } = input.sample.alerts;
    for wires in [pos, neg] {
        let bytes = wires.map(u64::to_be_bytes).concat();
        record.extend_from_slice(&bytes[..edition.wire_bytes()]);
    }
    record.extend(tail);
    Some(record)
}

/// The records of an older edition, as the proved writer would give them: 10 where no record holds an input.
fn packed_all(edition: Edition, inputs: &[Input]) -> Result<Vec<u8>, Refusal> {
    let records = inputs.iter().map(|input| packed(edition, input));
    let records: Option<Vec<Vec<u8>>> = records.collect();
    records.map(|all| all.concat()).ok_or(Refusal::NO_RECORD)
}

/// A record for each input, one after another.
pub fn written(edition: Edition, inputs: &[Input]) -> Result<Vec<u8>, Refusal> {
    if edition != Edition::NEWEST {
        return packed_all(edition, inputs);
    }
    let mut bytes = vec![0; inputs.len() * edition.bytes()];
    handler::record(inputs, &mut bytes).bytes().map(|_| bytes)
}

#[cfg(test)]
mod tests {
    use super::*;
    use handler::{Handler, Place, Word};
    use harness::record::{pack, Head};
    use harness::rng::Rng;

    /// An input that a record of the edition holds; places without a wire are at rest.
    fn some(rng: &mut Rng, edition: Edition) -> Input {
        let register = rng.below(1 << edition.register_bits()) as u16;
        let access = match rng.below(3) {
            0 => Access::Nothing,
            1 => Access::Read(register),
            _ => Access::Write(register, rng.bits() as u32),
        };
        let mut wires = |rest| {
            let bytes: Vec<u8> = (0..edition.wire_bytes())
                .map(|_| rng.bits() as u8)
                .collect();
            words(&bytes, rest)
        };
        let (pos, neg) = (wires(0), wires(255));
        let tail: Vec<u8> = (0..edition.tail_bytes())
            .map(|_| rng.bits() as u8)
            .collect();
        let tail = Tail::read(edition, &tail);
        Input {
            access,
            sample: Sample {
                alerts: Wires { pos, neg },
                word: tail.word,
                receive: tail.receive,
            },
            answers: tail.answers,
        }
    }

    fn harness_record(edition: Edition, input: &Input) -> Vec<u8> {
        let (kind, register, value) = match input.access {
            Access::Nothing => (0, 0, 0),
            Access::Read(register) => (1, register, 0),
            Access::Write(register, value) => (2, register, value),
            Access::Malformed => (3, 0, 0),
        };
        let head = Head::new(kind, register, value);
        let Wires { pos, neg } = input.sample.alerts;
        let tail = match edition.has_receive() {
            true => harness::record::Tail::wired(input.sample.word, input.sample.receive),
            false => harness::record::Tail::new(input.sample.word, input.answers),
        };
        pack(edition, head, (pos, neg), tail)
    }

    /// Our packing, that of the harness and, of the newest edition, the proved writer's are the same.
    #[test]
    fn every_input_goes_both_ways() {
        let mut rng = Rng::new(1);
        for edition in Edition::ALL {
            for _ in 0..2000 {
                let one = some(&mut rng, edition);
                let bytes = packed(edition, &one).expect("a record holds it");
                assert_eq!(bytes, harness_record(edition, &one));
                assert_eq!(written(edition, &[one]), Ok(bytes.clone()));
                assert_eq!(input(edition, &bytes), one);
            }
        }
    }

    /// The library takes what is packed for well-formed, and samples alert 0 and the last one.
    #[test]
    fn the_library_reads_what_is_packed() {
        let mut rng = Rng::new(2);
        for edition in Edition::ALL {
            let last = edition.alerts() - 1;
            let (handler, _) = Handler::new(edition.alerts());
            for _ in 0..500 {
                let one = some(&mut rng, edition);
                let bytes = packed(edition, &one).expect("a record holds it");
                let mut words = [Word::default()];
                let (after, answer) = handler.batch(edition, &bytes, &mut words);
                assert_eq!(answer.value(), Ok(0));
                assert_ne!(words[0].refusal(), Some(Refusal(5)));
                for alert in [0, last] {
                    let at = |words: [u64; WORDS]| words[alert / 64] >> (63 - alert % 64) & 1;
                    let Wires { pos, neg } = one.sample.alerts;
                    let taken = (at(pos), at(neg)) == (1, 0);
                    let place = after.links.receivers.place(alert);
                    assert_eq!(place == Place::Acknowledged, taken);
                }
            }
        }
    }

    #[test]
    fn what_no_record_holds_is_refused_with_10() {
        let rest = |access| Input::new(access, Sample::AT_REST);
        let good = rest(Access::Nothing);
        for (edition, over) in [
            (Edition::Alerts64, 1024),
            (Edition::Alerts248, 2048),
            (Edition::Pings, 2048),
            (Edition::Wires, 2048),
        ] {
            for bad in [
                Access::Read(over),
                Access::Write(over, 0),
                Access::Read(u16::MAX),
                Access::Malformed,
            ] {
                assert_eq!(packed(edition, &rest(bad)), None);
                let answer = written(edition, &[good, rest(bad), good]);
                assert_eq!(answer, Err(Refusal::NO_RECORD));
            }
            assert!(packed(edition, &rest(Access::Read(over - 1))).is_some());
            assert_eq!(written(edition, &[]), Ok(vec![]));
        }
    }

    /// What the ping timer is given and what the lines send back, each in the editions that hold it.
    #[test]
    fn an_edition_holds_what_it_brings() {
        use Edition::*;
        let with = |word, receive, answers| {
            let mut input = Input::new(Access::Nothing, Sample::AT_REST);
            (input.sample.word, input.sample.receive) = (word, receive);
            Input { answers, ..input }
        };
        let broken = LinePairs { pos: 4, neg: 15 };
        for (input, hold) in [
            (with(1, LinePairs::REST, 0), &[Pings, Wires][..]),
            (with(0, LinePairs::REST, 8), &[Pings]),
            (with(0, broken, 0), &[Wires]),
            (with(0, broken, 1), &[]),
            (
                with(
                    0,
                    LinePairs {
                        pos: 0xF0,
                        neg: 0xFF,
                    },
                    0xF0,
                ),
                &Edition::ALL,
            ),
        ] {
            for edition in Edition::ALL {
                let packed = packed(edition, &input);
                assert_eq!(packed.is_some(), hold.contains(&edition), "{edition:?}");
                if edition != Edition::NEWEST {
                    assert_eq!(written(edition, &[input]).ok(), packed);
                }
            }
        }
    }

    /// Line 0 is the first of the last four bits, and its positive wire the first of all eight.
    #[test]
    fn word_answers_and_pairs_stand_at_the_end() {
        let mut input = Input::new(Access::Nothing, Sample::AT_REST);
        input.sample.word = 0x1234_5678;
        input.answers = 0b0011;
        let bytes = packed(Edition::Pings, &input).expect("a record");
        assert_eq!(bytes[70..], [0x12, 0x34, 0x56, 0x78, 0b1100]);
        input.answers = 0;
        input.sample.receive = LinePairs {
            pos: 0b0011,
            neg: 0b1110,
        };
        let bytes = packed(Edition::Wires, &input).expect("a record");
        assert_eq!(bytes[70..], [0x12, 0x34, 0x56, 0x78, 0b1011_0101]);
    }
}
