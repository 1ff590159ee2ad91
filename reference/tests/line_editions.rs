//! States that meet both editions with words: in ticks of the older, a `-` in
//! the waves, the senders send and nothing is checked.

mod common;

use common::driven::{driven, due, play, run, shown};
use common::escalation::{right, sound};
use common::timer::{answering, drawing, line_due};
use common::{ready, Numbers, LINES, REST};
use reference::{Access, Handler, Sample, Timer};

/// Runs line 2 through a wave from a ping that is due in the first tick; the
/// turn ends in tick `ends`.
fn check(timeout: u16, lines: &str, answers: &str, waves: [&str; 3], ends: Option<usize>) {
    let mut h = due(2, timeout);
    for at in 0..lines.len() {
        let tick = at..at + 1;
        let reached = play(&mut h, 2, &lines[tick.clone()], &answers[tick.clone()]);
        let [sent, right, faults] = waves.map(|wave| &wave[tick.clone()]);
        assert_eq!(reached, shown(sent, right, faults), "{answers}, tick {at}");
        let ended = ends.map_or(false, |end| at >= end);
        assert_eq!(h.timer.lines == 0, ended, "{lines}, {answers}, tick {at}");
        if ended {
            h.timer.count = 1000;
        }
    }
}

#[test]
fn an_older_tick_spoils_the_answer() {
    // In any tick of the five; nothing but the timeout ends it.
    for at in 0..5 {
        let mut answers = ".".repeat(9);
        answers.replace_range(at..at + 1, "-");
        let waves = ["100000000", "010100000", "........."];
        check(0, "000000000", &answers, waves, None);
        let waves = ["100000000", "010100000", ".......1."];
        check(7, "000000000", &answers, waves, Some(7));
    }
    // All of them, and a fault is none there.
    let waves = ["100000000", "010100000", ".......1."];
    check(7, "000000000", "---------", waves, Some(7));
}

#[test]
fn a_bit_answers_in_any_older_tick() {
    // The ping opens in tick 0, of either edition, and the bit comes in a later
    // tick; ticks of the newest edition are right or wrong before it.
    for first in ['.', '-'] {
        for before in ['.', '!', '-'] {
            for at in [1, 2, 3, 6] {
                if at > 4 && (first, before) == ('.', '.') {
                    continue;
                }
                let mut h = due(2, 0);
                play(&mut h, 2, "0", &first.to_string());
                for _ in 1..at {
                    play(&mut h, 2, "0", &before.to_string());
                }
                assert_eq!(h.timer.lines, 4);
                run(&mut h, 0, answering(REST, !4));
                assert_eq!(h.timer.lines, 4);
                run(&mut h, 0, drawing(answering(REST, 4), 7));
                let number = line_due(2).number;
                assert_eq!((h.timer.lines, h.timer.number), (0, number + 1));
                assert!(!h.timer.wrong);
                assert_eq!(h.locals[1].cause, 0);
            }
        }
    }
}

#[test]
fn a_bit_in_the_tick_of_the_pulse_answers_and_the_pulse_is_sent() {
    for e in LINES {
        let mut h = due(e, 0);
        let sample = drawing(answering(REST, 1 << e), 99);
        let ticked = run(&mut h, 0, sample);
        assert_eq!((ticked.escalation.pos, h.timer.lines), (1 << e, 0));
        // A sound receiver answers the pulse, and the newest edition knows.
        for expected in [1, 0, 1, 0, 0] {
            assert_eq!(right(&h).pos, expected << e);
            let sample = sound(&h);
            run(&mut h, 0, sample);
        }
        assert_eq!(h.locals[3].cause, 0);
    }
}

#[test]
fn in_older_ticks_a_line_closes_no_ping() {
    let waves = ["1001100000", "0101010000", "........1."];
    check(8, "0001000000", "...-......", waves, Some(8));
    let waves = ["1011111100", "0101010100", ".........."];
    check(0, "0011111100", "----------", waves, None);
    // In the newest edition's next tick the line is still on and closes it.
    check(0, "0011111100", "----......", waves, Some(4));
}

#[test]
fn in_older_ticks_a_line_keeps_no_ping_from_opening() {
    // The line is on in the due tick: it opens, with no pulse of its own.
    let waves = ["1100000000", "0100000000", ".........."];
    check(0, "1000000000", "-.........", waves, None);
    // And the newest edition closes it while the line is on.
    let waves = ["1111000000", "0101000000", ".........."];
    check(0, "1111000000", "--........", waves, Some(2));
}

#[test]
fn in_older_ticks_a_ping_opens_unsent_right_after_the_pair_was_on() {
    for before in ["011", "01", "010"] {
        let mut h = driven();
        play(&mut h, 1, before, &"-".repeat(before.len()));
        h.timer = line_due(1);
        // After the lone tick of "01" the pair is on, but by the line alone.
        let sent = if before == "01" { "1" } else { "0" };
        assert_eq!(play(&mut h, 1, "0", "-").sent, sent);
        assert_eq!((h.timer.lines, h.timer.wrong), (2, true));
        // It was never sent, so nothing but a bit answers it.
        for _ in 0..9 {
            let answer = play(&mut h, 1, "0", ".");
            assert_eq!((answer.sent, answer.faults), ("0".into(), ".".into()));
        }
        assert_eq!(h.timer.lines, 2);
        run(&mut h, 0, answering(REST, 2));
        assert_eq!(h.timer.lines, 0);
    }
}

/// The ticks of (ix) give the same words with the senders there.
#[test]
fn older_words_do_not_depend_on_the_senders() {
    let mut numbers = Numbers(96);
    for _ in 0..60 {
        let mut plain = ready(2, 0x393D);
        for local in &mut plain.locals {
            local.en = 1;
        }
        plain.timer = Timer {
            enable: 1,
            timeout: 3,
            ..Timer::new()
        };
        let mut odd = plain.clone();
        for _ in 0..100 {
            let sample = answering(REST, numbers.below(16) as u8);
            let sample: Sample = drawing(sample, numbers.next() as u32 & 0xFF01_0003);
            // Senders as after any ticks of the newest edition.
            let donor: Handler = scrambled(&mut numbers);
            odd.senders = donor.senders;
            let expected = plain.tick(Access::None, &sample).outcome();
            assert_eq!(odd.tick(Access::None, &sample).outcome(), expected);
            odd.senders = plain.senders;
            assert_eq!(odd, plain);
        }
    }
}

/// A handler whose senders stand anywhere.
fn scrambled(numbers: &mut Numbers) -> Handler {
    let mut h = driven();
    for _ in 0..numbers.below(8) {
        run(&mut h, numbers.below(16) as u8, REST);
    }
    h
}
