//! Pings of alerts: opening, answering, and the ping pair.

mod common;

use common::timer::due;
use common::waves::check_pings;
use common::{configure, new, raised, ready, tick, with, write, ALERT0, COUNTS, REST};
use reference::{Access, Pairs, Place, Receiver, Timer};

// Opening

#[test]
fn opening_changes_the_level_in_its_tick_and_it_stays() {
    check_pings("0000", "..?.", "0000", "0011", "....");
    check_pings("0000", "?...", "0000", "1111", "....");
}

#[test]
fn while_a_ping_is_open_asking_a_receiver_does_nothing() {
    for ping in [false, true] {
        let mut receiver = Receiver {
            ping,
            ..Receiver::new()
        };
        receiver.ask();
        assert_eq!((receiver.ping, receiver.open), (!ping, true));
        let open = receiver;
        receiver.ask();
        assert_eq!(receiver, open);
    }
}

#[test]
fn each_answered_ping_changes_the_level_once() {
    // Due again in the tick after each answer.
    check_pings(
        "0100010001000",
        "?????????????",
        "0010001000100",
        "1100001111000",
        ".............",
    );
}

// Answering

#[test]
fn a_rise_answers_and_is_no_event() {
    check_pings("00100", "?....", "00010", "11111", ".....");
    // In the very tick of the opening.
    check_pings("00100", "..?..", "00010", "00111", ".....");
    // In the tick before it: an event, and the ping stays open.
    check_pings("00100", "...?.", "00010", "00011", "..e..");
}

#[test]
fn the_answer_closes_so_the_next_rise_is_an_event() {
    check_pings("010001", "?.....", "001000", "111111", ".....e");
    check_pings(
        "0100010001",
        "?.........",
        "0010001000",
        "1111111111",
        ".....e...e",
    );
    // Another ping takes the next rise again.
    check_pings(
        "0100010001",
        "?..?......",
        "0010001000",
        "1110000000",
        ".........e",
    );
}

#[test]
fn a_disabled_alert_answers_too() {
    let mut h = new(1);
    due(&mut h, 0);
    tick(&mut h, Access::None, REST);
    // No list of ticks comes here, since a ping needs an enabled alert that is
    // locked; a given state may.
    h.alerts[0].en = 0;
    assert_eq!((h.receivers[0].ping, h.receivers[0].open), (true, true));
    tick(&mut h, Access::None, ALERT0);
    assert_eq!((h.receivers[0].ping, h.receivers[0].open), (true, false));
    assert_eq!(h.receivers[0].place, Place::Acknowledged);
    assert_eq!(h.alerts[0].cause, 0);
}

#[test]
fn an_answer_starts_nothing() {
    // Threshold 0, interrupts on, a timeout: an event would show at once.
    let mut h = ready(1, 0x393F);
    configure(&mut h, 1286, 1);
    assert_eq!(write(&mut h, 1, 15), 0);
    due(&mut h, 0);
    let mut expected = h.clone();
    let ticked = tick(&mut h, Access::None, ALERT0);
    assert_eq!((ticked.interrupts, ticked.lines), (0, 0));
    expected.receivers[0] = Receiver {
        place: Place::Acknowledged,
        ping: true,
        open: false,
    };
    // The turn ended.
    expected.timer.number = 1;
    assert_eq!(h, expected);
}

// Pings in each place

#[test]
fn a_ping_opened_in_a_handshake_waits_for_the_next_rise() {
    // Acknowledged, and the rise that is held is not taken again.
    check_pings("1100001", ".?.....", "0110000", "0111111", "e......");
    check_pings("1100001", "..?....", "0110000", "0011111", "e......");
    // In either tick of pause.
    check_pings("100001", "..?...", "010000", "001111", "e.....");
    check_pings("100001", "...?..", "010000", "000111", "e.....");
    // Before the rise, in its tick, and after the pause.
    check_pings("01", "?.", "00", "11", "..");
    check_pings("10001", "....?", "01000", "00001", "e....");
}

#[test]
fn a_rise_that_waited_answers() {
    check_pings("10111", "..?..", "01000", "00111", "e....");
    check_pings("10111", "...?.", "01000", "00011", "e....");
    // Opened as late as in the tick that takes it.
    check_pings("10111", "....?", "01000", "00001", "e....");
    // One tick later it was an event.
    check_pings("101111", ".....?", "010001", "000001", "e...e.");
    // One that is gone when the pause ends answers nothing.
    check_pings("1011001", "..?....", "0100000", "0011111", "e......");
}

#[test]
fn a_ping_may_open_while_an_answer_runs() {
    // The answer was taken, so the ping is closed and another one opens.
    check_pings(
        "011000011",
        "?.?......",
        "001100001",
        "110000000",
        ".........",
    );
}

// Equal wires

#[test]
fn equal_wires_answer_nothing() {
    for wave in ["x", "X"] {
        let put = |wires: &str| wires.replace('=', wave);
        // A ping opens in a tick of equal wires as in any other.
        check_pings(&put("===1"), "?...", "0000", "1111", "....");
        check_pings(&put("0==1"), ".?.?", "0000", "0111", "....");
        check_pings(&put("1=0=001"), ".?.....", "0110000", "0111111", "e......");
        check_pings(&put("10=111"), "..?...", "010000", "001111", "e.....");
    }
}

#[test]
fn equal_wires_fail_with_a_ping_open_too() {
    for pair in [(0, 0), (1, 1)] {
        let mut h = ready(1, 0x393C);
        h.locals[2].en = 1;
        due(&mut h, 0);
        tick(&mut h, Access::None, REST);
        let open = h.receivers[0];
        assert_eq!(h.locals[2].cause, 0);
        tick(&mut h, Access::None, with(REST, 0, pair));
        assert_eq!((h.locals[2].cause, h.receivers[0]), (1, open));
    }
}

// Others

#[test]
fn a_ping_of_one_alert_leaves_the_others() {
    for n in COUNTS {
        for i in [0, n as usize / 2, n as usize - 1] {
            let mut h = new(n);
            due(&mut h, i);
            let mut expected = h.clone();
            let ticked = tick(&mut h, Access::None, REST);
            (expected.receivers[i].ping, expected.receivers[i].open) = (true, true);
            assert_eq!(h, expected);
            let bit = 1 << (63 - i % 64);
            let mut ping = Pairs::at_rest();
            ping.pos[i / 64] |= bit;
            ping.neg[i / 64] &= !bit;
            assert_eq!((ticked.ping, ticked.acknowledge), (ping, Pairs::at_rest()));
        }
    }
}

#[test]
fn the_rise_of_another_alert_is_an_event_and_no_answer() {
    let mut h = ready(3, 0x393C);
    due(&mut h, 1);
    tick(&mut h, Access::None, REST);
    let timer = Timer {
        count: 1,
        ..h.timer
    };
    tick(&mut h, Access::None, raised(&[0, 2]));
    let causes: Vec<u8> = h.alerts[..3].iter().map(|alert| alert.cause).collect();
    assert_eq!((causes, h.timer), (vec![1, 0, 1], timer));
    assert!(h.receivers[1].open);
}
