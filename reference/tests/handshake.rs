//! The handshake of request (viii): raised, acknowledged in the next tick,
//! dropped, acknowledgement dropped in the next, two ticks of pause.

mod common;

use common::waves::{check, counting, pair, play, shown, ALERTS, PAIRS};
use common::{configure, event, idle, new, pause, raised, ready, tick, with, COUNTS, REST};
use reference::{Access, Handler, Pairs, Place, Receiver};

/// A wave that leads from reset to each place; the last character is the tick
/// after which the receiver stands there.
const WAYS: [(&str, Place); 4] = [
    ("0", Place::Ready),
    ("1", Place::Acknowledged),
    ("10", Place::FirstPause),
    ("100", Place::SecondPause),
];

/// A handler whose alert i stands at the end of a way.
fn standing(n: u64, i: usize, (way, place): (&str, Place)) -> Handler {
    let mut h = counting(n, i);
    play(&mut h, i, way, &".".repeat(way.len()));
    assert_eq!(h.receivers[i].place, place);
    h
}

// The places

#[test]
fn at_reset_nothing_is_acknowledged_and_a_rise_is_taken() {
    for n in COUNTS {
        let mut h = new(n);
        let ticked = tick(&mut h, Access::None, REST);
        assert_eq!(ticked.acknowledge, Pairs::at_rest());
        assert_eq!(ticked.ping, Pairs::at_rest());
        assert_eq!(h, new(n));
    }
    check("1", "0", "e");
    check("01", "00", ".e");
}

#[test]
fn each_step_is_answered_in_the_next_tick() {
    check("01110000", "00111000", ".e......");
    // The shortest: a drop that is read in the tick of the acknowledgement.
    check("010000", "001000", ".e....");
}

#[test]
fn two_ticks_of_pause_then_the_next_rise() {
    check("0110001", "0011000", ".e....e");
    check("01100000011", "00110000001", ".e.......e.");
    // The fastest repeat is every fourth tick.
    check("1000100010001", "0100010001000", "e...e...e...e");
}

#[test]
fn an_alert_that_stays_high_is_one_event() {
    check("1111111110", "0111111111", "e.........");
    check("1111111100", "0111111110", "e.........");
}

#[test]
fn a_rise_that_is_gone_before_the_pause_ends_is_lost() {
    check("10100", "01000", "e....");
    check("10010", "01000", "e....");
    check("10110000", "01000000", "e.......");
}

#[test]
fn a_rise_waits_over_the_pause() {
    check("10111", "01000", "e...e");
    check("10011", "01000", "e...e");
    check("10001", "01000", "e...e");
    // Taken like any other, once.
    check("101111100000", "010001110000", "e...e.......");
    // Gone in the second tick of pause and back after it.
    check("10101", "01000", "e...e");
}

#[test]
fn high_all_the_time_but_for_the_drops() {
    // Taken in 0; dropped in 3, so taken in 6; then dropped and taken by four.
    check("1110111011101110", "0111000100010001", "e.....e...e...e.");
}

// Equal wires

#[test]
fn equal_wires_are_no_rise() {
    for wave in ['x', 'X'] {
        let put = |wires: &str| wires.replace('=', &wave.to_string());
        check(&put("=="), "00", "..");
        check(&put("=1"), "00", ".e");
        check(&put("0=0=1"), "00000", "....e");
    }
}

#[test]
fn equal_wires_are_no_drop_and_the_acknowledgement_comes_all_the_same() {
    for wave in ['x', 'X'] {
        let put = |wires: &str| wires.replace('=', &wave.to_string());
        check(&put("1="), "01", "e.");
        check(&put("1===1"), "01111", "e....");
        check(&put("1===0000"), "01111000", "e.......");
        check(&put("1=10001"), "0111000", "e.....e");
        check(&put("1=0001"), "011000", "e....e");
    }
}

#[test]
fn equal_wires_stretch_the_pause_and_the_acknowledgement_drops_all_the_same() {
    for wave in ['x', 'X'] {
        let put = |wires: &str| wires.replace('=', &wave.to_string());
        // In the first tick of pause, in the second, in both, many.
        check(&put("10=001"), "010000", "e....e");
        check(&put("100=01"), "010000", "e....e");
        check(&put("10=0=01"), "0100000", "e.....e");
        check(&put("10====001"), "010000000", "e.......e");
        // A rise in the stretched pause waits, and is lost if it goes.
        check(&put("10=0100"), "0100000", "e......");
        check(&put("10=111"), "010000", "e....e");
        check(&put("101=11"), "010000", "e....e");
        check(&put("101=101"), "0100000", "e.....e");
        // Equal wires are not the rise that waits.
        check(&put("1011="), "01000", "e....");
        check(&put("1011=1"), "010000", "e....e");
    }
}

#[test]
fn equal_wires_fail_in_every_place() {
    for (n, i) in ALERTS {
        for way in WAYS {
            for (wave, equal) in [('x', true), ('X', true), ('0', false), ('1', false)] {
                // Local 2 is enabled in class 3, and then is not.
                for en in [1, 0] {
                    let mut h = standing(n, i, way);
                    (h.locals[2].en, h.locals[2].class) = (en, 3);
                    let before = h.receivers;
                    tick(&mut h, Access::None, with(REST, i, pair(wave)));
                    let fails = equal && en == 1;
                    assert_eq!(h.locals[2].cause == 1, fails, "{wave} after {way:?}");
                    assert!(!equal || h.receivers == before);
                }
            }
        }
    }
}

#[test]
fn equal_wires_of_a_disabled_alert_hold_it_and_do_not_fail() {
    for way in WAYS {
        for wave in ['x', 'X'] {
            let mut h = standing(1, 0, way);
            (h.alerts[0].en, h.locals[2].en) = (0, 1);
            let before = h.clone();
            tick(&mut h, Access::None, with(REST, 0, pair(wave)));
            assert_eq!(h, before, "{wave} after {way:?}");
        }
    }
}

// Disabled alerts

#[test]
fn a_disabled_alert_runs_the_handshake_without_events() {
    for (n, i) in ALERTS {
        for (wires, acks) in [
            ("0110001", "0011000"),
            ("10111", "01000"),
            ("1x1x00x0011", "01111000001"),
        ] {
            let mut h = counting(n, i);
            configure(&mut h, 512 + i as u16, 0);
            let quiet = "0".repeat(wires.len());
            let nothing = ".".repeat(wires.len());
            let reached = play(&mut h, i, wires, &nothing);
            assert_eq!(reached, shown(acks, &quiet, &nothing));
        }
    }
}

#[test]
fn enabling_an_alert_in_the_middle_brings_no_event_of_the_rise_before() {
    let enable = Access::Write {
        register: 512,
        value: 1,
    };
    // Raised while disabled and still high.
    let mut h = counting(1, 0);
    configure(&mut h, 512, 0);
    event(&mut h);
    tick(&mut h, enable, raised(&[0]));
    tick(&mut h, enable, raised(&[0]));
    event(&mut h);
    assert_eq!((h.alerts[0].en, h.alerts[0].cause), (1, 0));
    // A rise in the tick that enables it is one: the access comes first.
    let mut h = counting(1, 0);
    configure(&mut h, 512, 0);
    tick(&mut h, enable, REST);
    tick(&mut h, enable, raised(&[0]));
    assert_eq!((h.alerts[0].cause, h.classes[0].accum_cnt), (1, 1));
}

// Many alerts

#[test]
fn each_alert_has_a_handshake_of_its_own() {
    let mut h = ready(248, 0x393C);
    // Alert i rises in tick i and stays high.
    for now in 0..250 {
        let all: Vec<usize> = (0..248).filter(|i| *i <= now).collect();
        let ticked = tick(&mut h, Access::None, raised(&all));
        for i in 0..248 {
            assert_eq!(h.alerts[i].cause == 1, i <= now);
            let acknowledged = common::waves::level(&ticked.acknowledge, i) == '1';
            assert_eq!(acknowledged, i < now, "{i} in tick {now}");
        }
    }
    // All drop at once, and all are ready again after two more ticks.
    pause(&mut h);
    assert_eq!(h.receivers, [Receiver::new(); 248]);
}

#[test]
fn the_events_of_one_tick_are_one_of_their_class() {
    let mut h = ready(248, 0x393D);
    h.classes[0].accum_thresh = 65535;
    let all: Vec<usize> = (0..248).collect();
    for round in 1..=5 {
        tick(&mut h, Access::None, raised(&all));
        assert_eq!(h.classes[0].accum_cnt, round);
        pause(&mut h);
    }
    // One that waits and one that comes when the pause is over: one tick.
    event(&mut h);
    idle(&mut h);
    tick(&mut h, Access::None, raised(&[0]));
    tick(&mut h, Access::None, raised(&[0]));
    assert_eq!(h.classes[0].accum_cnt, 6);
    tick(&mut h, Access::None, raised(&[0, 247]));
    assert_eq!(h.classes[0].accum_cnt, 7);
}

// One receiver, all of it

/// Where a receiver goes from a place by unequal wires.
fn next(place: Place, raised: bool) -> Place {
    match (place, raised) {
        (Place::Ready, false) | (Place::SecondPause, _) => Place::Ready,
        (Place::Ready, true) | (Place::Acknowledged, true) => Place::Acknowledged,
        (Place::Acknowledged, false) => Place::FirstPause,
        (Place::FirstPause, _) => Place::SecondPause,
    }
}

#[test]
fn every_place_pair_and_ping() {
    for (_, place) in WAYS {
        for (wave, (pos, neg)) in PAIRS {
            for ping in [false, true] {
                for open in [false, true] {
                    let mut receiver = Receiver { place, ping, open };
                    let acknowledged = place == Place::Acknowledged;
                    assert_eq!(receiver.acknowledges(), acknowledged);
                    let event = receiver.read(pos == 1, neg == 1);
                    let taken = place == Place::Ready && wave == '1';
                    let expected = Receiver {
                        place: match wave {
                            'x' | 'X' => place,
                            _ => next(place, wave == '1'),
                        },
                        ping,
                        open: open && !taken,
                    };
                    assert_eq!(receiver, expected, "{wave} in {place:?}");
                    assert_eq!(event, taken && !open);
                }
            }
        }
    }
}
