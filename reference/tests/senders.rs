//! The escalation senders: what they send for a line. No ping is open here.

mod common;

use common::driven::{driven, play, run, shown};
use common::escalation::{receiving, sound, Receivers};
use common::{tick, LINES, REST, SILENT};
use reference::{Access, Answering, Handler, LinePairs, Sender, Stand};

/// Checks a wave of each line from reset, with right answers.
fn check(lines: &str, sent: &str, right: &str) {
    let quiet = ".".repeat(lines.len());
    for e in LINES {
        let reached = play(&mut driven(), e, lines, &quiet);
        assert_eq!(reached, shown(sent, right, &quiet), "{lines} of {e}");
    }
}

#[test]
fn at_reset() {
    let sender = Sender {
        on: false,
        first: false,
        receiver: Answering {
            stand: Stand::Rest,
            level: false,
        },
    };
    assert_eq!(Sender::new(), sender);
    assert_eq!((sender.sent(), sender.expected()), (false, false));
    for n in [0, 1, 248, 249] {
        assert_eq!(Handler::new(n).0.senders, [sender; 4]);
    }
}

// What is sent

#[test]
fn a_line_on_holds_the_pair() {
    // Document 004's picture, but for the tick that it adds to a long pulse:
    // the request adds one to a lone tick only.
    check("011111100", "011111100", "001010100");
    check("01100000", "01100000", "00100000");
    check("01110000", "01110000", "00101000");
}

#[test]
fn a_lone_tick_is_lengthened_to_two() {
    check("01000000", "01100000", "00100000");
    check("1000000", "1100000", "0100000");
    // Off for one tick: the pair stays on.
    check("01010000", "01111000", "00101000");
    check("01011000", "01111000", "00101000");
    check("010101000", "011111100", "001010100");
    // Only the first tick of being on adds one.
    check("01101000", "01101100", "00100100");
    check("01100100", "01100110", "00100010");
    check("011101100", "011101100", "001010100");
}

#[test]
fn the_fields_of_a_sender() {
    let mut h = driven();
    // Line, on, first, sent, and the answer of the coming tick.
    for (line, on, first, sent, answer) in [
        (0, false, false, false, false),
        (4, true, true, true, true),
        (0, false, false, true, false),
        (0, false, false, false, false),
        (4, true, true, true, true),
        (4, true, false, true, false),
        (4, true, false, true, true),
        (0, false, false, false, false),
    ] {
        let sample = sound(&h);
        run(&mut h, line, sample);
        let sender = h.senders[2];
        assert_eq!((sender.on, sender.first), (on, first));
        assert_eq!((sender.sent(), sender.expected()), (sent, answer));
    }
}

#[test]
fn all_waves_of_a_line() {
    for bits in 0..1u32 << 10 {
        let mut h = driven();
        let mut receivers = Receivers::new();
        let line = |at: usize| at > 0 && at <= 10 && bits >> (at - 1) & 1 == 1;
        let mut before = false;
        for at in 1..16 {
            let e = (bits % 4) as usize;
            let sample = receiving(REST, receivers.answers());
            let ticked = run(&mut h, u8::from(line(at)) << e, sample);
            let lone = at > 1 && line(at - 1) && !line(at - 2);
            let on = line(at) || lone;
            assert_eq!(ticked.escalation.pair(e), (on, !on));
            // A receiver at the other end sees it from its second tick, and
            // so every escalation is seen.
            let seen = receivers.step(ticked.escalation);
            assert_eq!(seen, u8::from(on && before) << e);
            before = on;
            assert_eq!((h.locals[1].cause, h.locals[3].cause), (0, 0));
        }
    }
}

#[test]
fn a_line_of_a_real_escalation() {
    // Class 0 escalates by alert 0 with lengths 0, 1, 2 and 3, line e in phase
    // e; the answers are a receiver's.
    let mut h = common::ready(1, 0x393D);
    h.classes[0].phase_cyc = [0, 1, 2, 3];
    h.locals[3].en = 1;
    let mut receivers = Receivers::new();
    let (mut sent, mut seen) = (Vec::new(), Vec::new());
    for at in 0..12 {
        let mut sample = receiving(REST, receivers.answers());
        if at == 1 {
            (sample.pos[0], sample.neg[0]) = (1 << 63, !(1 << 63));
        }
        let pairs = tick(&mut h, Access::None, sample).escalation;
        assert_eq!(pairs.neg, pairs.pos ^ 15);
        sent.push(pairs.pos);
        seen.push(receivers.step(pairs));
    }
    // Phases 0 and 1 are one tick long, so lines 0 and 1 are on for two.
    assert_eq!(sent, [0, 1, 3, 6, 4, 8, 8, 8, 0, 0, 0, 0]);
    assert_eq!(seen, [0, 0, 1, 2, 4, 0, 8, 8, 0, 0, 0, 0]);
    assert_eq!(h.locals[3].cause, 0);
}

// Refusal 7

#[test]
fn refusal_7_sends_0_1_and_keeps_the_senders() {
    let mut h = driven();
    run(&mut h, 15, REST);
    h.intr_enable = 16;
    let broken = h.clone();
    for receive in [SILENT, LinePairs { pos: 15, neg: 0 }] {
        let ticked = tick(&mut h, Access::None, receiving(REST, receive));
        assert_eq!((ticked.answer, ticked.lines), (-7, 0));
        assert_eq!(ticked.escalation, SILENT);
        assert_eq!(h, broken);
    }
    // Mended, the lone tick is lengthened as if nothing had been.
    h.intr_enable = 0;
    let sample = sound(&h);
    let ticked = run(&mut h, 0, sample);
    assert_eq!(ticked.escalation, LinePairs { pos: 15, neg: 0 });
    assert_eq!(h.locals[3].cause, 0);
}
