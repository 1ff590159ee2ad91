//! Pings of escalation lines on checked wires: the pulse, the four answers and
//! the timeout.

mod common;

use common::driven::{check, driven, due, open, run};
use common::escalation::{receiving, right, sound, Receivers};
use common::timer::{drawing, entropy};
use common::{tick, LINES, REST};
use reference::{Access, LinePairs, Timer};

// Answers

#[test]
fn the_picture_of_a_ping() {
    // "ping testing of escalation lines": sent in tick 0, answered in tick 4.
    for timeout in [0, 4, 5, 65535] {
        let waves = ["1000000", "0101000", "......."];
        check(timeout, "0000000", ".......", waves, Some(4));
    }
}

#[test]
fn the_picture_of_a_missing_answer() {
    // The picture has a third fault in tick 5, when nothing is due any more.
    let waves = ["100000000", "010100000", ".3.3....."];
    check(0, "000000000", "000000000", waves, None);
    let waves = ["100000000", "010100000", ".3.3..1.."];
    check(6, "000000000", "000000000", waves, Some(6));
}

#[test]
fn a_wrong_answer_keeps_it_open_until_the_timeout() {
    for wrong in ["!", "x", "X"] {
        for at in 1..=4 {
            let mut answers = ".".repeat(9);
            answers.replace_range(at..at + 1, wrong);
            let mut faults = ".".repeat(9);
            faults.replace_range(at..at + 1, "3");
            let waves = ["100000000", "010100000", &faults];
            check(0, "000000000", &answers, waves, None);
            for timeout in [5u16, 7] {
                let end = usize::from(timeout);
                let mut faults = faults.clone();
                faults.replace_range(end..end + 1, "1");
                let waves = ["100000000", "010100000", &faults];
                check(timeout, "000000000", &answers, waves, Some(end));
            }
            // Wrong up to the tick of the timeout.
            let mut faults = faults.clone();
            faults.replace_range(4..5, if at == 4 { "b" } else { "1" });
            let waves = ["100000000", "010100000", &faults];
            check(4, "000000000", &answers, waves, Some(4));
        }
    }
}

#[test]
fn the_answer_in_the_tick_of_the_pulse_does_not_matter() {
    for (wrong, at) in [("!", 0), ("x", 0), ("X", 0)] {
        let mut answers = ".".repeat(7);
        answers.replace_range(at..at + 1, wrong);
        let waves = ["1000000", "0101000", "3......"];
        check(0, "0000000", &answers, waves, Some(4));
    }
}

#[test]
fn what_was_wrong_before_the_ping_does_not_matter() {
    for e in LINES {
        let mut h = due(e, 0);
        h.timer.wrong = true;
        for at in 0..=4 {
            let sample = drawing(sound(&h), entropy(50, 0));
            run(&mut h, 0, sample);
            assert_eq!((open(&h, e), h.timer.wrong), (at < 4, false));
        }
    }
}

#[test]
fn a_timeout_under_4_always_fails() {
    for timeout in 1..4u16 {
        let end = usize::from(timeout);
        let mut faults = ".".repeat(7);
        faults.replace_range(end..end + 1, "1");
        // A sound receiver goes on with its pattern, and that is no fault.
        let waves = ["1000000", "0101000", &faults];
        check(timeout, "0000000", ".......", waves, Some(end));
    }
}

#[test]
fn answers_of_other_lines_do_not_matter() {
    for e in LINES {
        let mut h = due(e, 9);
        for _ in 0..4 {
            // Every other line is wrong throughout.
            let wrong = right(&h);
            let mut receive = LinePairs {
                pos: wrong.neg,
                neg: wrong.pos,
            };
            receive = receive.with(e, wrong.pair(e));
            run(&mut h, 0, receiving(REST, receive));
            assert!(open(&h, e));
        }
        let sample = drawing(sound(&h), entropy(9, 0));
        run(&mut h, 0, sample);
        assert!(!open(&h, e));
        assert_eq!((h.locals[1].cause, h.locals[3].cause), (0, 1));
        assert_eq!(h.timer.number, 2 * e as u8 + 2);
    }
}

#[test]
fn answer_bits_do_not_matter_beside_receive_pairs() {
    let mut h = due(0, 0);
    for at in 0..=4 {
        let mut sample = sound(&h);
        (sample.answers, sample.word) = (15, entropy(50, 0));
        run(&mut h, 0, sample);
        assert_eq!(open(&h, 0), at < 4);
    }
}

#[test]
fn the_end_of_a_turn_draws_the_word_of_its_tick() {
    // Answered in tick 4, failed in tick 3, closed by its line in tick 2, and
    // closed unsent in tick 0.
    for (timeout, lines, end) in [(0, 0, 4), (3, 0, 3), (0, 4, 2), (0, 1, 0)] {
        for e in LINES {
            let mut h = due(e, timeout);
            for at in 0..=end {
                let sample = drawing(sound(&h), entropy(100 + at, 7));
                run(&mut h, (lines >> at & 1) << e, sample);
            }
            let expected = Timer {
                enable: 1,
                timeout,
                number: 2 * e as u8 + 2,
                alert: 7,
                count: 100 + end,
                ..Timer::new()
            };
            assert_eq!(h.timer, expected);
        }
    }
}

// Alerts

#[test]
fn an_alerts_ping_sends_no_pulse_and_no_line_closes_it() {
    let mut h = driven();
    (h.alerts[0].regwen, h.alerts[0].en) = (0, 1);
    h.timer = Timer {
        enable: 1,
        timeout: 5,
        ..Timer::new()
    };
    h.locals[0].en = 1;
    for at in 0..6 {
        assert_eq!((h.receivers[0].open, h.locals[0].cause), (at > 0, 0));
        let sample = sound(&h);
        let lines = if at < 3 { 0 } else { 15 };
        let ticked = run(&mut h, lines, sample);
        assert_eq!(ticked.escalation.pos, lines);
    }
    assert_eq!((h.receivers[0].open, h.locals[0].cause), (false, 1));
}

// The timer beside receivers

#[test]
fn sound_receivers_answer_every_line_in_turn() {
    let mut h = driven();
    h.timer = Timer {
        enable: 1,
        timeout: 4,
        ..Timer::new()
    };
    let mut receivers = Receivers::new();
    let mut pulses = Vec::new();
    for at in 0..100 {
        let sample = receiving(REST, receivers.answers());
        let sent = tick(&mut h, Access::None, sample).escalation;
        assert_eq!(receivers.step(sent), 0);
        if sent.pos != 0 {
            pulses.push((at, sent.pos));
        }
    }
    assert_eq!((h.locals[1].cause, h.locals[3].cause), (0, 0));
    // The word 0: an alert's turn that ends unpinged is one tick, a line's five.
    let expected: Vec<_> = (0..17)
        .map(|turn| (1 + 6 * turn, 1 << (turn % 4)))
        .collect();
    assert_eq!(pulses, expected);
}
