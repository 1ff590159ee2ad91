//! The program: the four kinds of input, and their edges.

mod common;

use common::records::{pack, record, EDITIONS};
use common::{sampled, with, REST};
use reference::{Access, Edition};
use std::io::Write;
use std::process::{Command, Stdio};

fn replay(input: &[u8]) -> String {
    let mut child = Command::new(env!("CARGO_BIN_EXE_reference-replay"))
        .stdin(Stdio::piped())
        .stdout(Stdio::piped())
        .spawn()
        .unwrap();
    let mut stdin = child.stdin.take().unwrap();
    let input = input.to_vec();
    // Written beside the reading, or both pipes fill and nobody goes on.
    let writer = std::thread::spawn(move || {
        // A refused N ends the program early, so a broken pipe is no fault.
        let _ = stdin.write_all(&input);
    });
    let output = child.wait_with_output().unwrap();
    writer.join().unwrap();
    assert!(output.status.success());
    String::from_utf8(output.stdout).unwrap()
}

/// What an input of the edition opens with.
fn opening(edition: Edition, n: u8) -> Vec<u8> {
    match edition {
        Edition::First => vec![n],
        Edition::Second => vec![255, n],
        Edition::Third => vec![254, n],
        Edition::Fourth => vec![253, n],
    }
}

#[test]
fn the_papers_words() {
    let wires = sampled([0; 4], [1 << 63, 0, 0, 0]);
    let heads = [
        (Edition::First, [0x5410_0000, 0xBFF0_0000]),
        (Edition::Second, [0x6808_0000, 0xBFF8_0000]),
        (Edition::Third, [0x6808_0000, 0xBFF8_0000]),
        (Edition::Fourth, [0x6808_0000, 0xBFF8_0000]),
    ];
    for (edition, heads) in heads {
        let mut input = opening(edition, 1);
        for head in heads {
            input.extend(pack(edition, head, 0, wires));
        }
        let words = "000000000000393c\n0010000000000000\n";
        assert_eq!(replay(&input), words);
        input.push(0);
        assert_eq!(replay(&input), format!("{words}cut\n"));
    }
}

#[test]
fn refused_openings() {
    assert_eq!(replay(&[]), "refused\n");
    assert_eq!(replay(&[0]), "refused\n");
    assert_eq!(replay(&[255]), "refused\n");
    assert_eq!(replay(&[254]), "refused\n");
    assert_eq!(replay(&[253]), "refused\n");
    for n in 65..=252 {
        assert_eq!(replay(&[n]), "refused\n", "{n}");
        assert_eq!(replay(&[n; 71]), "refused\n", "{n}");
    }
    for n in [0, 249, 250, 251, 252, 253, 254, 255] {
        for first in [253, 254, 255] {
            assert_eq!(replay(&[first, n]), "refused\n", "{first} {n}");
            let mut input = vec![first, n];
            input.extend([0; 75]);
            assert_eq!(replay(&input), "refused\n", "{first} {n}");
        }
    }
}

#[test]
fn accepted_openings_alone_print_nothing() {
    for n in [1, 2, 63, 64] {
        assert_eq!(replay(&[n]), "");
    }
    for n in [1, 63, 64, 65, 127, 128, 191, 192, 247, 248] {
        assert_eq!(replay(&[255, n]), "");
        assert_eq!(replay(&[254, n]), "");
        assert_eq!(replay(&[253, n]), "");
    }
}

#[test]
fn rest_bytes_print_cut() {
    for (edition, n) in EDITIONS.into_iter().zip([64, 248, 248, 248]) {
        for records in [0, 1, 3] {
            for rest in [0, 1, 23, 24, 69, 70, 74, 75] {
                let mut input = opening(edition, n);
                input.resize(input.len() + records * edition.bytes() + rest, 0);
                let whole = records + rest / edition.bytes();
                let mut text = "0000000000000000\n".repeat(whole);
                if rest % edition.bytes() != 0 {
                    text.push_str("cut\n");
                }
                assert_eq!(replay(&input), text, "{edition:?}, {rest} more");
            }
        }
    }
}

#[test]
fn the_last_of_248_alerts() {
    let second = |access, sample| record(Edition::Second, access, sample);
    for n in [65, 127, 128, 191, 192, 247, 248] {
        let last = u16::from(n) - 1;
        let mut input = opening(Edition::Second, n);
        let settings = [(512 + last, 1), (768 + last, 3), (1329, 0x393D), (1, 8)];
        for (register, value) in settings {
            let write = second(Access::Write { register, value }, REST);
            input.extend(write.repeat(2));
        }
        let event = with(REST, usize::from(last), (1, 0));
        input.extend(second(
            Access::Read {
                register: 1023 + u16::from(n),
            },
            event,
        ));
        input.extend(second(
            Access::Read {
                register: 1024 + last,
            },
            REST,
        ));
        input.extend(second(
            Access::Read {
                register: 1024 + u16::from(n),
            },
            REST,
        ));
        let expected = "0000000000000000\n".repeat(8)
            + "1800000000000000\n1400000000000001\n1210000000000000\n";
        assert_eq!(replay(&input), expected, "N {n}");
    }
}

#[test]
fn the_state_is_kept_over_blocks() {
    for edition in EDITIONS {
        // Ends exactly on a block and one record past it.
        for records in [8192, 8193, 20_000] {
            let mut input = opening(edition, 1);
            let enable = Access::Write {
                register: 1,
                value: 5,
            };
            input.extend(record(edition, enable, REST));
            for _ in 1..records {
                input.extend(record(edition, Access::Read { register: 1 }, REST));
            }
            let text = replay(&input);
            let mut lines = text.lines();
            assert_eq!(lines.next(), Some("0000000000000000"));
            assert_eq!(lines.clone().count(), records - 1);
            assert!(lines.all(|line| line == "0000000000000005"));
        }
    }
}

#[test]
fn pings_that_fail_show_in_the_words() {
    let third = |access, sample| record(Edition::Third, access, sample);
    let write = |register, value| third(Access::Write { register, value }, REST);
    let read = third(Access::Read { register: 41 }, REST);
    let mut input = opening(Edition::Third, 1);
    // The timeout is 2, and local 1 is enabled in class 0, which stays off.
    input.extend(write(5, 2).repeat(2));
    input.extend(write(25, 1).repeat(2));
    // The word 0 sets an alert's turn; alert 0 is not locked, so the turn ends
    // in the next tick, line 0's ping opens in the one after and fails two
    // ticks later.
    input.extend(write(6, 1));
    input.extend(read.repeat(6));
    let zeros = "0000000000000000\n".repeat(5 + 4);
    let failed = "0000000000000001\n".repeat(2);
    assert_eq!(replay(&input), zeros + &failed);
    // Line 0's answer in the last tick, alone, that of all others, and in a
    // malformed record.
    let size = Edition::Third.bytes();
    let last = 2 + 9 * size - 1;
    for (answers, fails) in [(8, false), (7, true), (0x88, false)] {
        let mut input = input.clone();
        input[last] = answers;
        let text = replay(&input);
        assert_eq!(text.contains("0000000000000001"), fails, "{answers}");
        let refused = text.contains("0050000000000000");
        assert_eq!(refused, answers == 0x88);
    }
}

#[test]
fn faults_and_pings_of_the_wires_show_in_the_words() {
    let fourth = |access, sample| record(Edition::Fourth, access, sample);
    let write = |register, value| fourth(Access::Write { register, value }, REST);
    let read = |register| fourth(Access::Read { register }, REST);
    let mut input = opening(Edition::Fourth, 1);
    // The timeout is 4, and local 1 and 3 are enabled in class 0, which stays
    // off.
    input.extend(write(5, 4).repeat(2));
    input.extend(write(25, 1).repeat(2));
    input.extend(write(27, 1).repeat(2));
    // The word 0 sets an alert's turn, which ends in the next tick; line 0's
    // ping is sent in the one after, and four answers are due.
    input.extend(write(6, 1));
    input.extend(read(43).repeat(2));
    input.extend(read(43).repeat(4));
    input.extend(read(41));
    let zeros = |many| "0000000000000000\n".repeat(many);
    let ones = |many| "0000000000000001\n".repeat(many);
    // Silence: local 3 from the first answer on, and local 1 in the last.
    assert_eq!(replay(&input), zeros(7 + 2 + 1) + &ones(3 + 1));
    let size = Edition::Fourth.bytes();
    let last = |tick: usize| 2 + (tick + 1) * size - 1;
    // The answers (1,0), (0,1), (1,0), (0,1) of line 0.
    let mut sound = input.clone();
    (sound[last(9)], sound[last(11)]) = (0x95, 0x95);
    assert_eq!(replay(&sound), zeros(7 + 2 + 4 + 1));
    // Equal wires of line 3 in the first of these ticks.
    let mut equal = sound.clone();
    equal[last(9)] = 0x97;
    assert_eq!(replay(&equal), zeros(7 + 2 + 1) + &ones(3) + &zeros(1));
    // As an older input it has other words: its last bytes are malformed.
    let mut older = input.clone();
    older[0] = 254;
    assert_eq!(replay(&older), "0050000000000000\n".repeat(14));
}
