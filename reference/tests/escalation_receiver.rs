//! The escalation receiver of document 004, without its watch for missing
//! pings: its waves, the second statement of request (xi), and equal wires.

mod common;

use common::escalation::{level, pair};
use common::waves::PAIRS;
use reference::EscalationReceiver;

/// Plays a wave; gives the answers, and `e` for each tick with an escalation.
fn play(receiver: &mut EscalationReceiver, wave: &str) -> (String, String) {
    let (mut answers, mut seen) = (String::new(), String::new());
    for wires in wave.chars() {
        let (pos, neg) = pair(wires);
        let coming = receiver.answer();
        let shown = receiver.step(pos, neg);
        assert_eq!(shown.answer, coming);
        answers.push(level(shown.answer));
        seen.push(if shown.escalation { 'e' } else { '.' });
    }
    (answers, seen)
}

/// Checks a wave from reset.
fn check(wave: &str, answers: &str, seen: &str) {
    let shown = play(&mut EscalationReceiver::new(), wave);
    assert_eq!(shown, (answers.into(), seen.into()), "{wave}");
}

/// All sound waves of a length.
fn sound_waves(length: usize) -> impl Iterator<Item = String> {
    (0..1u32 << length).map(move |bits| {
        let ticks = (0..length).map(|at| bits >> at & 1);
        ticks.map(|bit| if bit == 1 { '1' } else { '0' }).collect()
    })
}

/// Whether the wave's pair is on in a tick.
fn on(wave: &str, at: usize) -> bool {
    wave.as_bytes()[at] == b'1'
}

// Document 004's pictures

#[test]
fn the_picture_of_an_escalation() {
    // "Escalation signaling and response", ticks 0 to 8.
    check("011111100", "001010100", "..eeeee..");
}

#[test]
fn the_picture_of_a_ping() {
    // "ping testing of escalation lines", ticks 0 to 6.
    check("0100000", "0010100", ".......");
}

#[test]
fn the_picture_of_equal_wires() {
    // "possible signal integrity failure cases", ticks 5 to 11.
    check("0XXXXXX", "00xXxXx", ".eeeeee");
}

#[test]
fn the_picture_of_the_phases() {
    // The lines of "Alert class gathering" one after another: as long as each
    // is on, and for one more answer.
    check("0111110000", "0010101000", "..eeee....");
}

// Sound wires

#[test]
fn the_shortest_escalations() {
    check("0110000", "0010000", "..e....");
    check("01110000", "00101000", "..ee....");
    check("011110000", "001010000", "..eee....");
    // Right from the first tick.
    check("110000", "010000", ".e....");
    check("100000", "010100", "......");
}

#[test]
fn an_escalation_while_a_ping_is_answered() {
    // The pair comes on 1 to 6 ticks after the pulse; the toggling goes on in
    // turn, and 5 ticks after it starts anew, as it was over.
    check("0111110000", "0010101000", "..eeee....");
    check("01011110000", "00101010000", "....eee....");
    check("01001111000", "00101010100", ".....eee...");
    check("01000111100", "00101010100", "......eee..");
    check("010000111100", "001010010100", ".......eee..");
    check("0100000111100", "0010100010100", "........eee..");
}

#[test]
fn an_escalation_that_ends_in_any_turn_rests_at_once() {
    // Come on 3 ticks after the pulse, on for 2, 3 and 4 ticks.
    check("0100110000", "0010101000", ".....e....");
    check("01001110000", "00101010000", ".....ee....");
    check("010011110000", "001010101000", ".....eee....");
}

#[test]
fn an_escalation_is_seen_exactly_from_its_second_tick() {
    // The second statement of request (xi).
    for wave in sound_waves(13) {
        let (answers, seen) = play(&mut EscalationReceiver::new(), &wave);
        for at in 0..wave.len() {
            let expected = at > 0 && on(&wave, at) && on(&wave, at - 1);
            assert_eq!(seen.as_bytes()[at] == b'e', expected, "{wave}, {at}");
        }
        // Sound wires have sound answers.
        assert!(answers.chars().all(|answer| answer == '0' || answer == '1'));
    }
}

#[test]
fn every_lone_pulse_is_answered_and_every_tick_toggles() {
    for wave in sound_waves(13) {
        let (answers, _) = play(&mut EscalationReceiver::new(), &wave);
        // A tick has a part in a ping's answer if a lone pulse lies 1 to 4
        // ticks before it.
        let lone = |at: usize| {
            let before = at > 0 && on(&wave, at - 1);
            let after = at + 1 < wave.len() && on(&wave, at + 1);
            on(&wave, at) && !before && !after
        };
        let mut answer = false;
        for at in 1..wave.len() {
            let pinged = (1..=4).any(|back| at >= back && lone(at - back));
            answer = (on(&wave, at - 1) || pinged) && !answer;
            assert_eq!(on(&answers, at), answer, "{wave}, {at}");
        }
    }
}

#[test]
fn pulses_too_close_for_a_sender() {
    // No sender sends them. Each has four answers, and they go on in turn.
    check("01010000000", "00101010000", "...........");
    check("010010000000", "001010101000", "............");
    check("010001000000", "001010101000", "............");
    check("0100001000000", "0010100101000", ".............");
    check("0101010000000", "0010101010000", ".............");
}

// Equal wires

#[test]
fn equal_wires_are_an_escalation_at_once() {
    for wires in ['x', 'X'] {
        for before in ["", "0", "1", "11", "10", "100", "1000", "0111"] {
            let wave = format!("{before}{wires}00");
            let (answers, seen) = play(&mut EscalationReceiver::new(), &wave);
            let (_, tail) = seen.split_at(before.len());
            assert_eq!(tail, "e..", "{wave}");
            // The answer of the next tick, whatever came before, is (0,0).
            assert_eq!(&answers[before.len() + 1..], "x0", "{wave}");
        }
    }
}

#[test]
fn equal_answers_toggle_whichever_the_wires() {
    check("xxxxx0000", "0xXxXx000", "eeeee....");
    check("xXxXX0000", "0xXxXx000", "eeeee....");
    check("0Xx000", "00xX00", ".ee...");
    // They start with (0,0) again after a sound tick.
    check("xx0xx00", "0xX0xX0", "ee.ee..");
    check("x0x0x00", "0x0x0x0", "e.e.e..");
}

#[test]
fn the_first_sound_tick_starts_anew() {
    // Off, a ping and an escalation right after equal wires.
    check("0x00000", "00x0000", ".e.....");
    check("0x100000", "00x10100", ".e......");
    check("0x111000", "00x10100", ".e.ee...");
    // Nothing of an escalation or a ping before them is left.
    check("11x11000", "010x1000", ".ee.e...");
    check("10x00000", "010x0000", "..e.....");
    check("1x10000000", "01x1010000", ".e........");
    for before in ["x", "1X", "11xX", "10x", "100X", "0xXx"] {
        for wave in sound_waves(9) {
            let mut receiver = EscalationReceiver::new();
            play(&mut receiver, before);
            let (answers, seen) = play(&mut receiver, &wave);
            let anew = play(&mut EscalationReceiver::new(), &wave);
            assert_eq!((&answers[1..], &seen), (&anew.0[1..], &anew.1));
        }
    }
}

#[test]
fn a_receiver_at_reset() {
    let receiver = EscalationReceiver::new();
    assert_eq!(receiver, EscalationReceiver::default());
    assert_eq!(receiver.answer(), (false, true));
    for (wave, _) in PAIRS {
        assert_eq!(play(&mut receiver.clone(), &wave.to_string()).0, "0");
    }
}
