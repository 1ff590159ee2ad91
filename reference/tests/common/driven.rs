//! A handler whose lines are switched by hand: line e is class e's alone, which
//! stays in Phase 0 while the line is to be on.

use super::escalation::{level, receiving, right};
use super::timer::line_due;
use super::{new, tick, LINES, REST};
use reference::class::{IDLE, PHASE0};
use reference::{Access, Handler, LinePairs, Sample, Ticked};

/// A handler of one alert with local 1 and 3 enabled. The classes are off, so
/// that no local alert escalates, but a phase does not read that.
pub fn driven() -> Handler {
    let mut h = new(1);
    for (e, class) in h.classes.iter_mut().enumerate() {
        class.ctrl = 1 << (2 + e);
        class.phase_cyc[0] = u32::MAX;
    }
    (h.locals[1].en, h.locals[3].en) = (1, 1);
    h
}

/// The same, with line e's ping due in the coming tick.
pub fn due(e: usize, timeout: u16) -> Handler {
    let mut h = driven();
    h.timer = line_due(e as u8);
    h.timer.timeout = timeout;
    h
}

/// Runs a tick without access in which these lines are on, line 0 lowest.
pub fn run(h: &mut Handler, lines: u8, sample: Sample) -> Ticked {
    for (e, class) in h.classes.iter_mut().enumerate() {
        (class.state, class.esc_cnt) = match lines >> e & 1 {
            1 => (PHASE0, 1),
            _ => (IDLE, 0),
        };
    }
    let ticked = tick(h, Access::None, sample);
    assert_eq!((ticked.answer, ticked.lines), (0, lines));
    ticked
}

/// The sample that a wave's character means for line e: `.` for right answers,
/// `!` for a wrong one on the line, `x` and `X` for equal wires on it, `0` for
/// silence on it, and `-` for an older edition's tick.
pub fn sample(h: &Handler, e: usize, answer: char) -> Sample {
    let expected = h.senders[e].expected();
    let pair = match answer {
        '.' => (expected, !expected),
        '!' => (!expected, expected),
        'x' => (false, false),
        'X' => (true, true),
        '0' => (false, true),
        '-' => {
            return Sample {
                receive: None,
                ..REST
            }
        }
        _ => panic!("{answer}"),
    };
    receiving(REST, right(h).with(e, pair))
}

/// What the ticks of a wave showed of a line: its pair, the right answer, and
/// the faults, `3` for local 3, `1` for local 1, `b` for both.
#[derive(Debug, PartialEq, Eq)]
pub struct Shown {
    pub sent: String,
    pub right: String,
    pub faults: String,
}

/// What a wave is to show.
pub fn shown(sent: &str, right: &str, faults: &str) -> Shown {
    Shown {
        sent: sent.into(),
        right: right.into(),
        faults: faults.into(),
    }
}

/// Runs line e through a wave of `1` for on, with answers as `sample` has them.
/// The other lines stay off and at rest.
pub fn play(h: &mut Handler, e: usize, lines: &str, answers: &str) -> Shown {
    assert_eq!(lines.len(), answers.len());
    let mut shown = shown("", "", "");
    for (line, answer) in lines.chars().zip(answers.chars()) {
        shown.right.push(level(right(h).pair(e)));
        let sample = sample(h, e, answer);
        (h.locals[1].cause, h.locals[3].cause) = (0, 0);
        let ticked = run(h, u8::from(line == '1') << e, sample);
        shown.sent.push(level(ticked.escalation.pair(e)));
        shown
            .faults
            .push(match (h.locals[1].cause, h.locals[3].cause) {
                (0, 0) => '.',
                (0, _) => '3',
                (_, 0) => '1',
                _ => 'b',
            });
        others_rest(h, e, ticked.escalation);
    }
    shown
}

/// Checks that nothing of line e shows on another.
fn others_rest(h: &Handler, e: usize, sent: LinePairs) {
    for other in (0..4).filter(|other| *other != e) {
        assert_eq!(sent.pair(other), (false, true), "{other} beside {e}");
        assert_eq!(h.senders[other], Default::default());
    }
}

/// Whether line e's ping is open.
pub fn open(h: &Handler, e: usize) -> bool {
    assert_eq!(h.timer.lines & !(1 << e), 0);
    h.timer.lines != 0
}

/// Runs a wave on line e, whose ping is due in its first tick, and checks what
/// shows and the tick in which the turn ends, if any.
pub fn check(timeout: u16, lines: &str, answers: &str, waves: [&str; 3], ends: Option<usize>) {
    for e in LINES {
        let mut h = due(e, timeout);
        let number = h.timer.number;
        for at in 0..lines.len() {
            let tick = at..at + 1;
            let before = h.timer.number;
            let shown_now = play(&mut h, e, &lines[tick.clone()], &answers[tick.clone()]);
            let [sent, right, faults] = waves.map(|wave| &wave[tick.clone()]);
            let expected = shown(sent, right, faults);
            assert_eq!(shown_now, expected, "{lines}, {answers}, tick {at}");
            let ended = ends.map_or(false, |end| at >= end);
            assert_eq!(h.timer.number - number, u8::from(ended), "tick {at}");
            assert_eq!(open(&h, e), !ended, "{lines}, {answers}, tick {at}");
            if before != h.timer.number {
                assert!(!h.timer.wrong);
                // The next turn is far off, so that the rest stays quiet.
                h.timer.count = 1000;
            }
        }
    }
}
