//! Real escalations beside the pings of their lines: they win, and a ping that
//! is due right after one is not sent.

mod common;

use common::driven::{check, driven, due, open, play, run};
use common::escalation::{receiving, sound, Receivers};
use common::timer::{drawing, entropy, line_due};
use common::{LINES, REST};

// Real escalations

#[test]
fn a_line_closes_its_ping_unfailed() {
    // In each tick of the answer; the toggling goes on in turn.
    let rows = [
        (1, "0100000", "1110000", "0101000"),
        (2, "0010000", "1011000", "0101000"),
        (3, "00010000", "10011000", "01010100"),
        (1, "0111100", "1111100", "0101010"),
        (2, "0011110", "1011110", "0101010"),
        (3, "0001111", "1001111", "0101010"),
    ];
    for (end, lines, sent, right) in rows {
        for timeout in [0, 4, 9] {
            let quiet = ".".repeat(lines.len());
            check(timeout, lines, &quiet, [sent, right, &quiet], Some(end));
        }
    }
    // In tick 4 it is answered, and the line changes nothing of that.
    let quiet = ".".repeat(7);
    let waves = ["1000110", "0101010", &quiet];
    check(0, "0000100", &quiet, waves, Some(4));
}

#[test]
fn a_line_closes_a_ping_that_was_answered_wrong() {
    let waves = ["100000000110", "010100000010", "..3........."];
    check(0, "000000000100", "..!.........", waves, Some(9));
    // A wrong answer in that very tick fails, and the ping does not.
    let waves = ["1001100", "0101010", "...3..."];
    check(4, "0001000", "...!...", waves, Some(3));
}

#[test]
fn the_timeout_comes_before_the_line_of_its_tick() {
    let waves = ["1011000", "0101000", "..1...."];
    check(2, "0010000", ".......", waves, Some(2));
    let waves = ["100011000", "010101000", ".3..1...."];
    check(4, "000010000", ".!.......", waves, Some(4));
    // A line one tick earlier closes it unfailed, and right answers are in time.
    let waves = ["100110000", "010101000", ".3......."];
    check(4, "000100000", ".!.......", waves, Some(3));
    let waves = ["100011000", "010101000", "........."];
    check(4, "000010000", ".........", waves, Some(4));
}

#[test]
fn another_lines_escalation_closes_nothing() {
    for e in LINES {
        let mut h = due(e, 0);
        let mut receivers = Receivers::new();
        for at in 0..=4 {
            assert_eq!(open(&h, e), at > 0);
            let sample = drawing(receiving(REST, receivers.answers()), entropy(50, 0));
            let ticked = run(&mut h, 15 & !(1 << e), sample);
            let pulse = u8::from(at == 0) << e;
            assert_eq!(ticked.escalation.pos, 15 & !(1 << e) | pulse);
            receivers.step(ticked.escalation);
        }
        assert!(!open(&h, e));
        assert_eq!((h.locals[1].cause, h.locals[3].cause), (0, 0));
    }
}

// Due beside an escalation

/// Line e's pair before a ping is due, by a wave of the line, then the wave of
/// the pair in the due tick and the two after it, and whether the turn ended in
/// the due tick.
fn due_after(before: &str, line: &str, sent: &str, ended: bool) {
    for e in LINES {
        let mut h = driven();
        play(&mut h, e, before, &".".repeat(before.len()));
        h.timer = line_due(e as u8);
        let mut pairs = String::new();
        for at in 0..3 {
            let now = &line[at..at + 1];
            let answer = play(&mut h, e, now, ".");
            assert_eq!(answer.faults, ".");
            pairs.push_str(&answer.sent);
            if at == 0 {
                assert_eq!(h.timer.number != line_due(e as u8).number, ended);
                assert_eq!(open(&h, e), !ended, "{before}, {line}");
                if ended {
                    h.timer.count = 1000;
                }
            }
        }
        assert_eq!(pairs, sent, "{before}, {line}");
        assert_eq!(h.locals[1].cause, 0);
    }
}

#[test]
fn a_ping_due_right_after_the_pair_was_on_closes_unsent() {
    due_after("011", "000", "000", true);
    due_after("0111", "000", "000", true);
    // After the lengthened tick too.
    due_after("0100", "000", "100", false);
    due_after("010", "000", "000", true);
    // In the lengthened tick itself.
    due_after("01", "000", "100", true);
    // One tick later it is sent.
    due_after("0110", "000", "100", false);
    due_after("01110", "000", "100", false);
    due_after("", "000", "100", false);
}

#[test]
fn a_ping_due_while_its_line_is_on_closes_unsent() {
    // The line comes on in that tick, alone and for longer.
    due_after("00", "100", "110", true);
    due_after("00", "110", "110", true);
    due_after("00", "111", "111", true);
    // It was on before.
    due_after("01", "100", "100", true);
    due_after("011", "100", "100", true);
    due_after("01", "110", "110", true);
    due_after("0111", "111", "111", true);
    // It comes on again right after being off for a tick.
    due_after("0110", "100", "110", true);
    due_after("010", "100", "110", true);
}

#[test]
fn a_ping_due_right_after_another_lines_escalation_is_sent() {
    for e in LINES {
        let mut h = driven();
        for _ in 0..3 {
            let sample = sound(&h);
            run(&mut h, 15 & !(1 << e), sample);
        }
        h.timer = line_due(e as u8);
        let sample = sound(&h);
        let ticked = run(&mut h, 0, sample);
        assert_eq!((ticked.escalation.pos, h.timer.lines), (1 << e, 1 << e));
    }
}
