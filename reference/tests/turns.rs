//! The turns of the ping timer: whose they are, when their ping is due, and
//! what ends them without one.

mod common;

use common::timer::{alert_due, answering, drawing, entropy, line_due, sample, word};
use common::waves::level;
use common::{configure, new, raised, ready, tick, write, ALERT0, COUNTS, REST};
use reference::timer::Turn;
use reference::{Access, Handler, Pairs, Source, Timer};

/// Switches the timer on in a tick with this word.
fn switch_on(h: &mut Handler, word: u32) {
    let access = Access::Write {
        register: 6,
        value: 1,
    };
    assert_eq!(tick(h, access, drawing(REST, word)).answer, 0);
}

/// A handler whose alerts are all locked and enabled.
fn locked(n: u64) -> Handler {
    let mut h = ready(n, 0x393C);
    for i in 0..n as u16 {
        assert_eq!(write(&mut h, 256 + i, 0), 0);
    }
    h
}

/// The alerts below N and the lines whose ping is open.
fn open(h: &Handler) -> Vec<Turn> {
    let alerts = (0..h.n as usize).filter(|i| h.receivers[*i].open);
    let lines = (0..4).filter(|e| h.timer.lines >> e & 1 == 1);
    alerts
        .map(Turn::Alert)
        .chain(lines.map(Turn::Line))
        .collect()
}

// Alternation

#[test]
fn alerts_and_lines_alternate_and_the_lines_come_in_turn() {
    let mut h = locked(248);
    switch_on(&mut h, entropy(0, 0));
    for round in 0..600usize {
        let alert = round * 7 % 248;
        // Every third alert's ping and every fifth line's fails.
        h.timer.timeout = 1;
        let first = if round % 3 == 0 {
            REST
        } else {
            raised(&[alert])
        };
        sample(&mut h, first);
        if round % 3 == 0 {
            assert_eq!(open(&h), [Turn::Alert(alert)]);
            sample(&mut h, REST);
        }
        assert_eq!((h.timer.turn(), open(&h)), (Turn::Line(round % 4), vec![]));
        let answers = if round % 5 == 0 { 0 } else { 1 << (round % 4) };
        let next = entropy(0, ((round + 1) * 7 % 248) as u8);
        sample(&mut h, drawing(answering(REST, answers), next));
        if round % 5 == 0 {
            assert_eq!(open(&h), [Turn::Line(round % 4)]);
            sample(&mut h, drawing(REST, next));
        }
        // The alert is back at rest long before it is pinged again.
        let next = Turn::Alert((round + 1) * 7 % 248);
        assert_eq!((h.timer.turn(), open(&h)), (next, vec![]));
        assert_eq!(usize::from(h.timer.number), (2 * round + 2) % 256);
    }
    assert_eq!((h.locals[0].cause, h.locals[1].cause), (0, 0));
}

#[test]
fn every_byte_is_a_turn() {
    for number in 0..=255 {
        let timer = Timer {
            number,
            alert: 77,
            ..Timer::new()
        };
        let expected = match number % 8 {
            1 => Turn::Line(0),
            3 => Turn::Line(1),
            5 => Turn::Line(2),
            7 => Turn::Line(3),
            _ => Turn::Alert(77),
        };
        assert_eq!(timer.turn(), expected, "{number}");
        // After it comes the next, and after the last the first.
        let mut h = new(1);
        h.timer = Timer { enable: 1, ..timer };
        sample(&mut h, answering(REST, 15));
        assert_eq!(h.timer.number, number.wrapping_add(1));
    }
}

// Due

#[test]
fn the_low_16_bits_plus_1_are_the_ticks_to_the_ping() {
    for ticks in [0, 1, 2, 3, 255, 256, 1000, 65534, 65535] {
        let mut h = locked(2);
        switch_on(&mut h, entropy(ticks, 1));
        assert_eq!((h.timer.count, h.timer.alert), (ticks, 1));
        for past in 1..=u32::from(ticks) + 1 {
            assert_eq!(open(&h), [], "{ticks}");
            assert_eq!(u32::from(h.timer.count), u32::from(ticks) + 1 - past);
            // The words of these ticks count for nothing.
            word(&mut h, u32::MAX);
        }
        assert_eq!((open(&h), h.timer.count), (vec![Turn::Alert(1)], 0));
    }
}

#[test]
fn the_same_for_a_line_and_from_the_tick_in_which_a_turn_ends() {
    for ticks in [0, 1, 2, 300, 65535] {
        let mut h = locked(1);
        h.timer = alert_due(0);
        sample(&mut h, drawing(ALERT0, entropy(ticks, 0)));
        for _ in 0..=ticks {
            assert_eq!((open(&h), h.timer.turn()), (vec![], Turn::Line(0)));
            word(&mut h, entropy(7, 7));
        }
        assert_eq!(open(&h), [Turn::Line(0)]);
        // And back from the line's answer to an alert.
        sample(&mut h, drawing(answering(REST, 1), entropy(ticks, 0)));
        for _ in 0..=ticks {
            assert_eq!((open(&h), h.timer.turn()), (vec![], Turn::Alert(0)));
            word(&mut h, entropy(7, 7));
        }
        assert_eq!(open(&h), [Turn::Alert(0)]);
    }
}

#[test]
fn the_next_8_bits_are_the_alert_and_the_highest_8_nothing() {
    for alert in 0..=255 {
        for high in [0, 1, 0x80, 0xFF] {
            let mut h = new(248);
            switch_on(&mut h, high << 24 | entropy(5, alert));
            let expected = Timer {
                enable: 1,
                count: 5,
                alert,
                ..Timer::new()
            };
            assert_eq!(h.timer, expected);
        }
    }
}

#[test]
fn the_alert_of_a_word_that_sets_a_lines_turn_counts_for_nothing() {
    let mut h = locked(3);
    h.timer = alert_due(1);
    sample(&mut h, drawing(raised(&[1]), entropy(0, 2)));
    assert_eq!((h.timer.turn(), h.timer.alert), (Turn::Line(0), 1));
    // The alert comes from the word that ends the line's turn.
    sample(&mut h, drawing(answering(REST, 1), entropy(0, 0)));
    sample(&mut h, REST);
    assert_eq!(open(&h), [Turn::Alert(0)]);
}

#[test]
fn words_and_answers_do_nothing_while_the_timer_is_off() {
    for n in [1, 248] {
        let mut h = locked(n);
        let before = h.clone();
        for word in [0, 1, u32::MAX] {
            for answers in [0, 15, 255] {
                sample(&mut h, drawing(answering(REST, answers), word));
                assert_eq!(h, before);
            }
        }
    }
}

// Locked and enabled

#[test]
fn only_a_locked_and_enabled_alert_is_pinged() {
    for (regwen, en) in [(0, 1), (1, 1), (0, 0), (1, 0)] {
        let mut h = new(3);
        // Its neighbours are locked and enabled.
        for i in [0, 2] {
            (h.alerts[i].regwen, h.alerts[i].en) = (0, 1);
        }
        (h.alerts[1].regwen, h.alerts[1].en) = (regwen, en);
        h.timer = alert_due(1);
        let mut expected = h.clone();
        let ticked = word(&mut h, entropy(9, 2));
        if (regwen, en) == (0, 1) {
            (expected.receivers[1].open, expected.receivers[1].ping) = (true, true);
            assert_eq!(level(&ticked.ping, 1), '1');
        } else {
            // No level changes, and the tick's word sets line 0's turn.
            (expected.timer.number, expected.timer.count) = (1, 9);
            assert_eq!(ticked.ping, Pairs::at_rest());
        }
        assert_eq!(h, expected);
    }
}

#[test]
fn the_turn_that_opens_no_ping_ends_in_the_due_tick_and_fails_nothing() {
    let mut h = new(1);
    (h.locals[0].en, h.locals[1].en) = (1, 1);
    configure(&mut h, 5, 1);
    switch_on(&mut h, entropy(2, 0));
    for (number, count) in [(0, 1), (0, 0), (1, 4), (1, 3)] {
        word(&mut h, entropy(4, 0));
        assert_eq!((h.timer.number, h.timer.count), (number, count));
    }
    assert_eq!((h.locals[0].cause, h.locals[1].cause), (0, 0));
}

#[test]
fn a_lock_or_an_enable_by_the_access_of_the_due_tick_counts() {
    let write = |register, value| Access::Write { register, value };
    // Locked in the due tick, in the tick before, and in the one after.
    for (late, opens) in [(0, true), (1, true), (2, false)] {
        let mut h = ready(1, 0x393C);
        h.timer = Timer {
            count: 1,
            ..alert_due(0)
        };
        for now in 0..3 {
            let access = if now == late {
                write(256, 0)
            } else {
                Access::None
            };
            tick(&mut h, access, drawing(REST, entropy(50, 0)));
        }
        assert_eq!(open(&h) == [Turn::Alert(0)], opens);
        assert_eq!(h.timer.number, u8::from(!opens));
    }
    // The second of two equal writes switches it on in the due tick; a lock in
    // a list of ticks can only come after, so the state is given.
    let mut h = new(1);
    h.stages.alerts.en[0] = 2;
    h.timer = alert_due(0);
    h.alerts[0].regwen = 0;
    assert_eq!(tick(&mut h.clone(), write(512, 1), REST).answer, -3);
    h.alerts[0].regwen = 1;
    tick(&mut h, write(512, 1), REST);
    assert_eq!((h.alerts[0].en, open(&h), h.timer.number), (1, vec![], 1));
}

#[test]
fn a_ping_that_is_open_does_not_look_at_lock_and_enable_again() {
    let mut h = locked(1);
    h.timer = alert_due(0);
    sample(&mut h, REST);
    // No list of ticks unlocks an alert; a given state may.
    (h.alerts[0].regwen, h.alerts[0].en) = (1, 0);
    for age in 1..5 {
        sample(&mut h, REST);
        assert_eq!((open(&h), h.timer.count), (vec![Turn::Alert(0)], age));
    }
    sample(&mut h, ALERT0);
    assert_eq!((open(&h), h.timer.number), (vec![], 1));
}

// N and above

#[test]
fn at_n_and_above_the_turn_ends_whatever_is_stored() {
    for n in COUNTS {
        for alert in n as usize..256 {
            let mut h = new(n);
            for i in n as usize..248 {
                h.alerts[i] = Source {
                    regwen: 0,
                    en: 1,
                    class: 9,
                    cause: 0,
                };
                h.receivers[i].open = i % 2 == 0;
            }
            h.timer = alert_due(alert as u8);
            h.timer.timeout = 1;
            (h.locals[0].en, h.locals[1].en) = (1, 1);
            let mut expected = h.clone();
            let ticked = sample(&mut h, drawing(raised(&[alert]), entropy(3, 0)));
            (expected.timer.number, expected.timer.count) = (1, 3);
            assert_eq!(ticked.ping, Pairs::at_rest());
            assert_eq!(h, expected, "N {n}, alert {alert}");
        }
    }
}

#[test]
fn a_count_at_n_and_above_runs_down_beside_a_stored_open_ping() {
    // What is stored there is no open ping of the turn, so the count is still
    // that of the ticks to it.
    let mut h = new(1);
    h.receivers[5].open = true;
    h.timer = Timer {
        count: 2,
        timeout: 1,
        ..alert_due(5)
    };
    for (number, count) in [(0, 1), (0, 0), (1, 0)] {
        sample(&mut h, REST);
        assert_eq!((h.timer.number, h.timer.count), (number, count));
    }
    assert!(h.receivers[5].open);
}

#[test]
fn a_handler_of_no_alerts_pings_lines_only() {
    let mut h = Handler::new(0).0;
    switch_on(&mut h, 0);
    for e in 0..8 {
        sample(&mut h, REST);
        sample(&mut h, REST);
        assert_eq!(open(&h), [Turn::Line(e % 4)]);
        sample(&mut h, answering(REST, 1 << (e % 4)));
    }
}

// With other things in the tick

#[test]
fn a_refused_access_stops_no_turn() {
    let read = |register| Access::Read { register };
    let write = |register, value| Access::Write { register, value };
    for (access, answer) in [
        (read(1293), -1),
        (read(1283), -2),
        (write(256, 1), -3),
        (write(1, 16), -4),
        (Access::Malformed, -5),
        (write(1301, 6), -12),
        (write(1296, 0), -14),
    ] {
        let mut h = locked(1);
        (h.classes[1].ctrl, h.classes[1].accum_thresh) = (0x393D, 65535);
        for number in [0, 1] {
            h.stages.classes[1].thresh = 8;
            h.timer = if number == 0 {
                alert_due(0)
            } else {
                line_due(0)
            };
            let both = answering(ALERT0, 1);
            let ticked = tick(&mut h, access, drawing(both, entropy(8, 0)));
            assert_eq!(ticked.answer, answer);
            assert_eq!((h.timer.number, h.timer.count), (number + 1, 8));
        }
    }
}

#[test]
fn a_line_s_ping_shows_on_no_wire_and_drives_no_line() {
    for e in 0..4 {
        let mut h = locked(1);
        h.timer = line_due(e);
        for age in 0..3 {
            let ticked = sample(&mut h, REST);
            assert_eq!((ticked.interrupts, ticked.lines), (0, 0));
            assert_eq!(ticked.ping, Pairs::at_rest());
            assert_eq!((h.timer.lines, h.timer.count), (1 << e, age));
        }
    }
}
