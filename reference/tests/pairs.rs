//! Acknowledge and ping pairs where there is no alert or no tick, and the
//! handshake where the caller is a trace.

mod common;

use common::records::{record, EDITIONS};
use common::timer::{alert_due, due};
use common::waves::{counting, level, play, shown, ALERTS};
use common::{new, raised, ready, tick, ALERT0, COUNTS, PAUSE, REST, SILENT};
use reference::{batch, Access, Handler, LinePairs, Pairs, Place, Receiver, Sample};

#[test]
fn at_rest_is_0_1_at_all_256_places() {
    let (zeros, ones) = ([0; 4], [u64::MAX; 4]);
    assert_eq!(Sample::at_rest(), REST);
    assert_eq!((REST.pos, REST.neg), (zeros, ones));
    assert_eq!((REST.word, REST.answers), (0, 0));
    assert_eq!(REST.receive, Some(LinePairs::at_rest()));
    assert_eq!(LinePairs::at_rest(), SILENT);
    let pairs = Pairs::at_rest();
    assert_eq!((pairs.pos, pairs.neg), (zeros, ones));
}

// N and above

#[test]
fn at_n_and_above_no_ping_opens() {
    let none = Handler::new(0).0;
    for start in COUNTS.into_iter().map(new).chain([none]) {
        let above: Vec<usize> = (start.n as usize..256).collect();
        for i in &above {
            for sample in [REST, raised(&above)] {
                let mut h = start.clone();
                h.timer = alert_due(*i as u8);
                let mut expected = h.clone();
                // The turn ends, and the word 0 sets the next.
                expected.timer.number = 1;
                let ticked = tick(&mut h, Access::None, sample);
                assert_eq!(ticked.ping, Pairs::at_rest());
                assert_eq!(ticked.acknowledge, Pairs::at_rest());
                assert_eq!(h, expected);
            }
        }
    }
}

#[test]
fn at_n_and_above_the_pairs_are_at_rest_whatever_is_stored() {
    let high = Receiver {
        place: Place::Acknowledged,
        ping: true,
        open: true,
    };
    for n in COUNTS {
        let mut h = new(n);
        h.receivers = [high; 248];
        // Below N at most one ping may be open.
        for receiver in &mut h.receivers[..n as usize] {
            receiver.open = false;
        }
        let ticked = tick(&mut h, Access::None, REST);
        for pairs in [ticked.acknowledge, ticked.ping] {
            for i in 0..256 {
                let expected = if i < n as usize { '1' } else { '0' };
                assert_eq!(level(&pairs, i), expected, "N {n}, {i}");
            }
        }
        for i in 0..248 {
            let above = i >= n as usize;
            assert_eq!(h.receivers[i] == high, above);
            assert_eq!(h.receivers[i].place == Place::Acknowledged, above);
        }
    }
}

// Refusals

#[test]
fn a_refused_access_does_not_keep_a_ping_from_opening() {
    let read = |register| Access::Read { register };
    let write = |register, value| Access::Write { register, value };
    for (access, answer) in [
        (read(1293), -1),
        (read(1283), -2),
        (write(1281, 1), -3),
        (write(1, 16), -4),
        (Access::Malformed, -5),
        (write(1301, 6), -12),
        (write(1296, 0), -14),
    ] {
        let mut h = ready(1, 0x393C);
        (h.classes[0].regwen, h.stages.classes[1].thresh) = (0, 8);
        (h.classes[1].ctrl, h.classes[1].accum_thresh) = (0x393D, 65535);
        due(&mut h, 0);
        let ticked = tick(&mut h, access, REST);
        assert_eq!((ticked.answer, level(&ticked.ping, 0)), (answer, '1'));
        assert!(h.receivers[0].open);
        tick(&mut h, access, ALERT0);
        assert_eq!((h.receivers[0].open, h.alerts[0].cause), (false, 0));
    }
}

#[test]
fn refusal_7_shows_pairs_at_rest_and_keeps_the_receivers() {
    for (n, i) in ALERTS {
        let mut h = counting(n, i);
        // Acknowledged, with the ping pair high and a ping open.
        play(&mut h, i, "011", "..?");
        let sound = h.clone();
        let damages: [fn(&mut Handler); 3] = [
            |h| h.intr_state = 16,
            |h| h.classes[3].state = 2,
            |h| h.n = 249,
        ];
        for damage in damages {
            let mut h = sound.clone();
            damage(&mut h);
            let broken = h.clone();
            for sample in [REST, raised(&[i])] {
                let ticked = tick(&mut h, Access::None, sample);
                assert_eq!(ticked.answer, -7);
                assert_eq!(ticked.acknowledge, Pairs::at_rest());
                assert_eq!(ticked.ping, Pairs::at_rest());
                assert_eq!(h, broken);
            }
            // Mended, the levels show again and the handshake goes on.
            (h.n, h.intr_state, h.classes[3].state) = (n, 0, 0);
            let expected = shown("110000", "111111", "......");
            assert_eq!(play(&mut h, i, "100001", "......"), expected);
        }
    }
}

#[test]
fn a_refused_tick_opens_no_ping() {
    let mut h = counting(1, 0);
    due(&mut h, 0);
    h.intr_enable = 16;
    tick(&mut h, Access::None, REST);
    assert!(!h.receivers[0].open);
    // It is still due, so it opens in the next tick.
    h.intr_enable = 0;
    assert_eq!(play(&mut h, 0, "01", ".."), shown("00", "11", ".."));
}

// Traces

#[test]
fn a_batch_runs_the_handshake() {
    for edition in EDITIONS {
        let mut h = counting(64, 0);
        let run = |h: &mut Handler, sample| {
            let bytes = record(edition, Access::None, sample);
            assert_eq!(batch(h, edition, &bytes, &mut [0]), 0);
        };
        run(&mut h, ALERT0);
        for _ in 0..PAUSE {
            assert_eq!(h.classes[0].accum_cnt, 1);
            run(&mut h, REST);
        }
        assert_eq!(h.receivers, [Receiver::new(); 248]);
        // A ping that a tick opened is answered by a rise in a batch, where
        // the records have words.
        if !edition.has_word() {
            continue;
        }
        due(&mut h, 0);
        tick(&mut h, Access::None, REST);
        run(&mut h, ALERT0);
        assert_eq!((h.classes[0].accum_cnt, h.receivers[0].open), (1, false));
        assert_eq!(level(&tick(&mut h, Access::None, REST).ping, 0), '1');
    }
}
