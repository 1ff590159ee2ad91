//! Skipping the calm: the escalation receivers at the other end answer without
//! fault, so that no local 3 occurs, and a skip is as many plain ticks with
//! their answers.

mod common;

use common::calm::{in_phase, in_timeout, skipped, Change, EACH};
use common::escalation::{receiving, sound, Receivers};
use common::{new, tick, Numbers, REST};
use reference::answering::{Answering, Stand};
use reference::{Access, Handler, Place, Sample, Sender};

/// All that plain ticks give, with four receivers at the other end.
fn plain(h: &mut Handler, ends: &mut Receivers, sample: Sample, ticks: u32) -> Vec<Change> {
    let mut found = Vec::new();
    let mut lines = step_5(h);
    for at in 1..=ticks {
        let ticked = tick(h, Access::None, receiving(sample, ends.answers()));
        ends.step(ticked.escalation);
        if ticked.lines != lines {
            found.push((ticked.lines, at));
        }
        lines = ticked.lines;
    }
    found
}

/// The lines of a state.
fn step_5(h: &Handler) -> u8 {
    h.classes
        .iter()
        .fold(0, |lines, class| lines | class.lines())
}

/// A number that is often small.
fn length(numbers: &mut Numbers) -> u32 {
    match numbers.below(6) {
        0 => 0,
        1 => numbers.next() as u32,
        2 => numbers.below(200) as u32,
        _ => numbers.below(12) as u32,
    }
}

/// A state with the timer off that is likely to move by itself.
fn state(numbers: &mut Numbers) -> Handler {
    let n = [1, 2, 5, 64, 248][numbers.below(5) as usize];
    let mut h = new(n);
    (h.intr_state, h.intr_enable) = (numbers.below(16) as u8, numbers.below(16) as u8);
    for source in h.locals.iter_mut().chain(&mut h.alerts[..n as usize]) {
        source.en = numbers.below(4).min(1) as u8;
        source.class = numbers.below(4) as u8;
    }
    let places = [
        Place::Ready,
        Place::Ready,
        Place::Acknowledged,
        Place::FirstPause,
        Place::SecondPause,
    ];
    for receiver in &mut h.receivers[..n as usize] {
        receiver.place = places[numbers.below(5) as usize];
        receiver.ping = numbers.below(2) == 1;
    }
    for k in 0..4 {
        let lengths = std::array::from_fn(|_| length(numbers));
        match numbers.below(4) {
            0 => in_phase(
                &mut h,
                k,
                numbers.below(4) as u8,
                1 + length(numbers) / 2,
                lengths,
            ),
            1 => in_timeout(&mut h, k, 1 + length(numbers) / 2, length(numbers), lengths),
            _ => (h.classes[k].timeout_cyc, h.classes[k].phase_cyc) = (length(numbers), lengths),
        }
        let class = &mut h.classes[k];
        class.ctrl = match numbers.below(3) {
            0 => numbers.below(0x4000) as u16,
            _ => EACH,
        };
        class.accum_thresh = numbers.below(8) as u16 * numbers.below(3) as u16;
        class.accum_cnt = numbers.below(4) as u16;
    }
    assert!(h.valid());
    h
}

/// Steady wires: mostly at rest, with a few pairs of any kind.
fn wires(numbers: &mut Numbers, n: u64) -> Sample {
    let mut sample = REST;
    for _ in 0..numbers.below(4) {
        let pair = (numbers.below(2), numbers.below(2));
        sample = common::with(sample, numbers.below(n) as usize, pair);
    }
    sample
}

#[test]
fn a_skip_is_as_many_ticks_with_the_receivers_answers() {
    let mut numbers = Numbers(51);
    let mut seen = [0; 21];
    for _ in 0..3000 {
        let mut h = state(&mut numbers);
        let mut ends = Receivers::new();
        // Ticks before the skip, so that something is on the pairs.
        let sample = wires(&mut numbers, h.n);
        let before = numbers.below(20) as u32;
        plain(&mut h, &mut ends, sample, before);
        let sample = wires(&mut numbers, h.n);
        let ticks = numbers.below(120) as u32;
        let mut other = h.clone();
        let (ticked, found) = skipped(&mut h, sample, ticks);
        assert_eq!(found, plain(&mut other, &mut ends, sample, ticks));
        assert_eq!(h, other);
        assert_eq!(ticked.lines, step_5(&h));
        assert_eq!(ticked.interrupts, h.intr_state & h.intr_enable);
        seen[found.len()] += 1;
    }
    let often = seen[..=8].iter().all(|met| *met > 20);
    assert!(often, "some numbers of changes were hardly met: {seen:?}");
}

#[test]
fn a_skip_in_two_parts_is_the_same() {
    let mut numbers = Numbers(52);
    for _ in 0..1000 {
        let mut whole = state(&mut numbers);
        let mut parts = whole.clone();
        let sample = wires(&mut numbers, whole.n);
        let (first, second) = (numbers.below(60) as u32, 1 + numbers.below(60) as u32);
        let (expected, all) = skipped(&mut whole, sample, first + second);
        let (_, mut found) = skipped(&mut parts, sample, first);
        let (mut ticked, later) = skipped(&mut parts, sample, second);
        found.extend(later.iter().map(|row| (row.0, row.1 + first)));
        ticked.answer = found.len() as i64;
        assert_eq!((ticked, found), (expected, all));
        assert_eq!(parts, whole);
    }
}

#[test]
fn no_sender_sees_a_fault_whatever_was_on_its_pair() {
    let stands = [
        Stand::Rest,
        Stand::First,
        Stand::Escalation,
        Stand::Second,
        Stand::Third,
        Stand::Fourth,
    ];
    for e in 0..4 {
        for (at, stand) in stands.into_iter().enumerate() {
            for bits in 0..8 {
                let mut h = new(1);
                (h.locals[3].en, h.classes[0].ctrl) = (1, EACH);
                in_phase(&mut h, 1, 0, 1, [at as u32 + 1; 4]);
                h.senders[e] = Sender {
                    on: bits & 1 != 0,
                    first: bits & 2 != 0,
                    receiver: Answering {
                        stand,
                        level: bits & 4 != 0,
                    },
                };
                // One wrong answer, and local 3 occurs.
                let mut wrong = h.clone();
                let mut receive = sound(&wrong).receive.unwrap();
                (receive.pos, receive.neg) = (receive.pos ^ 1 << e, receive.neg ^ 1 << e);
                tick(&mut wrong, Access::None, receiving(REST, receive));
                assert_eq!(wrong.locals[3].cause, 1);
                skipped(&mut h, REST, 60);
                assert_eq!((h.locals[3].cause, h.intr_state), (0, 0));
            }
        }
    }
}

#[test]
fn the_pair_goes_on_with_the_line() {
    // Off before, on from tick 3 to 7, the answer toggling.
    for (ticks, on) in [(1, 0), (2, 0), (3, 1), (4, 1), (7, 1), (8, 0), (9, 0)] {
        let mut h = new(1);
        in_timeout(&mut h, 0, 1, 3, [5, 9, 9, 9]);
        h.classes[0].ctrl = 1 | 1 << 2;
        let (ticked, _) = skipped(&mut h, REST, ticks);
        assert_eq!(
            (ticked.escalation.pos, ticked.escalation.neg),
            (on, 15 - on)
        );
    }
    // A lone tick is lengthened to two, which is no change of the line.
    for (ticks, on) in [(2, 0), (3, 1), (4, 1), (5, 0)] {
        let mut h = new(1);
        in_timeout(&mut h, 0, 1, 3, [0, 9, 9, 9]);
        h.classes[0].ctrl = 1 | 1 << 2;
        let (ticked, found) = skipped(&mut h, REST, ticks);
        assert_eq!(
            (ticked.escalation.pos, ticked.escalation.neg),
            (on, 15 - on)
        );
        assert_eq!(found, [(1, 3), (0, 4)][..(ticks - 2).min(2) as usize]);
    }
}
