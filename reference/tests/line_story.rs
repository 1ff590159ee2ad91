//! Random ticks with lines, pings and faults, of the newest edition and of
//! older ones mixed, beside a second telling of request (xi) that looks back
//! over all ticks so far.

mod common;

use common::driven::{driven, run};
use common::timer::entropy;
use common::{Numbers, LINES, REST};
use reference::{Handler, LinePairs, Sample, Timer};

/// What happened in one tick.
#[derive(Clone, Copy)]
struct Told {
    checked: bool,
    lines: u8,
    sent: u8,
    right: u8,
    received: LinePairs,
}

/// What ended a line's turn, or that nothing did.
#[derive(Debug, PartialEq, Eq, Clone, Copy)]
enum Came {
    Nothing,
    Opened,
    Unsent,
    Answered,
    Failed,
    Closed,
}

/// All ticks so far, and where the timer stands.
struct Story {
    told: Vec<Told>,
    turns: usize,
    due: usize,
    opened: Option<usize>,
}

fn bit(bits: u8, e: usize) -> bool {
    bits >> e & 1 == 1
}

impl Story {
    /// Whether line e's pair was on in a tick; before the first it was not.
    fn sent(&self, e: usize, at: isize) -> bool {
        at >= 0
            && self
                .told
                .get(at as usize)
                .map_or(false, |told| bit(told.sent, e))
    }

    /// Whether line e was on in a tick.
    fn line(&self, e: usize, at: isize) -> bool {
        at >= 0 && bit(self.told[at as usize].lines, e)
    }

    /// The answer of line e's sound receiver in the coming tick: it toggles
    /// after a tick that was on, and in the four ticks after a lone pulse.
    fn right(&self, e: usize) -> bool {
        let now = self.told.len() as isize;
        let lone = |at| self.sent(e, at) && !self.sent(e, at - 1) && !self.sent(e, at + 1);
        let pinged = (2..=4).any(|back| lone(now - back));
        let before = now > 0 && bit(self.told[now as usize - 1].right, e);
        (self.sent(e, now - 1) || pinged) && !before
    }

    /// The line of the turn, if it is a line's.
    fn turn(&self) -> Option<usize> {
        [None, Some(0), None, Some(1), None, Some(2), None, Some(3)][self.turns % 8]
    }

    /// Whether what came back on line e in a tick was checked and right.
    fn good(&self, e: usize, at: usize) -> bool {
        let told = self.told[at];
        let right = bit(told.right, e);
        told.checked && told.received.pair(e) == (right, !right)
    }

    /// Whether the ping of line e that opened in tick `at` is answered in the
    /// last tick told.
    fn answered(&self, e: usize, at: usize, answers: u8) -> bool {
        let now = self.told.len() - 1;
        if !self.told[now].checked {
            return bit(answers, e);
        }
        let all = (at + 1..=now).all(|tick| self.good(e, tick));
        now == at + 4 && all && self.told[at].checked
    }

    /// Tells a tick; gives what came of the turn.
    fn tick(&mut self, lines: u8, sample: &Sample, timeout: usize) -> Came {
        let now = self.told.len();
        let last = now as isize - 1;
        let mut told = Told {
            checked: sample.receive.is_some(),
            lines,
            sent: 0,
            right: 0,
            received: sample.receive.unwrap_or(LinePairs { pos: 0, neg: 0 }),
        };
        let mut came = Came::Nothing;
        if self.opened.is_none() && now == self.due {
            came = match self.turn() {
                Some(e) if !(told.checked && self.sent(e, last)) => Came::Opened,
                _ => Came::Unsent,
            };
        }
        for e in LINES {
            let lone = self.line(e, last) && !self.line(e, last - 1);
            let opens = came == Came::Opened && self.turn() == Some(e);
            let pulse = opens && !self.sent(e, last);
            told.sent |= u8::from(bit(lines, e) || lone || pulse) << e;
            told.right |= u8::from(self.right(e)) << e;
        }
        self.told.push(told);
        if came == Came::Opened {
            self.opened = Some(now);
        }
        match (self.turn(), self.opened) {
            (Some(e), Some(at)) => self.settled(e, at, sample.answers, timeout, came),
            _ => came,
        }
    }

    /// How line e's ping that opened in tick `at` stands after the last tick.
    fn settled(&self, e: usize, at: usize, answers: u8, timeout: usize, came: Came) -> Came {
        let now = self.told.len() - 1;
        let told = self.told[now];
        if self.answered(e, at, answers) {
            Came::Answered
        } else if timeout > 0 && now >= at + timeout {
            Came::Failed
        } else if told.checked && bit(told.lines, e) {
            Came::Closed
        } else {
            came
        }
    }

    /// The word of the last tick sets the turn after `turns` others.
    fn set(&mut self, turns: usize, word: u32) {
        self.turns = turns;
        self.due = self.told.len() + (word % 65536) as usize;
        self.opened = None;
    }

    /// Checks where the handler stands after the last tick.
    fn check(&self, h: &Handler) {
        let now = self.told.len() as isize - 1;
        for e in LINES {
            let sender = h.senders[e];
            assert_eq!(sender.on, self.line(e, now));
            let first = self.line(e, now) && !self.line(e, now - 1);
            assert_eq!((sender.first, sender.sent()), (first, self.sent(e, now)));
            assert_eq!(sender.expected(), self.right(e), "line {e}");
            let open = self.opened.is_some() && self.turn() == Some(e);
            assert_eq!(bit(h.timer.lines, e), open);
        }
        assert_eq!(usize::from(h.timer.number), self.turns % 256);
        let count = match self.opened {
            None => self.due as isize - now - 1,
            Some(at) => now - at as isize,
        };
        assert_eq!(isize::from(h.timer.count as i16), count);
        let spoiled = self.opened.map_or(false, |at| {
            let e = self.turn().unwrap();
            let unchecked = !self.told[at].checked;
            unchecked || (at + 1..self.told.len()).any(|tick| !self.good(e, tick))
        });
        assert_eq!(h.timer.wrong, spoiled);
    }
}

/// Whether local 3 has a reason in the last tick.
fn faulty(story: &Story) -> bool {
    let now = story.told.len() - 1;
    story.told[now].checked && LINES.iter().any(|e| !story.good(*e, now))
}

/// How a run goes: one in so many ticks is an older edition's, has a fault, and
/// has a line that changes.
#[derive(Clone, Copy)]
struct Odds {
    older: u64,
    fault: u64,
    change: u64,
}

/// A sample with mostly right answers.
fn sample(numbers: &mut Numbers, story: &Story, odds: Odds) -> Sample {
    let mut receive = LinePairs { pos: 0, neg: 0 };
    for e in LINES {
        let right = story.right(e);
        let mut pair = (right, !right);
        if numbers.below(4 * odds.fault) == 0 {
            pair = (numbers.below(2) == 1, numbers.below(2) == 1);
        }
        receive = receive.with(e, pair);
    }
    let mut sample = REST;
    sample.receive = Some(receive);
    if numbers.below(odds.older) == 0 {
        sample.receive = None;
        sample.answers = (numbers.next() & numbers.next()) as u8;
    }
    sample.word = entropy(numbers.below(4) as u16, numbers.next() as u8);
    sample
}

/// Runs a tick beside its telling; adds what came of a line's turn to what was
/// met.
fn step(h: &mut Handler, story: &mut Story, lines: u8, sample: Sample, met: &mut [u32; 6]) {
    (h.locals[1].cause, h.locals[3].cause) = (0, 0);
    let ticked = run(h, lines, sample);
    let came = story.tick(lines, &sample, usize::from(h.timer.timeout));
    met[came as usize] += u32::from(story.turn().is_some());
    assert_eq!(h.locals[1].cause == 1, came == Came::Failed);
    assert_eq!(h.locals[3].cause == 1, faulty(story));
    let pos = story.told[story.told.len() - 1].sent;
    let neg = pos ^ 15;
    assert_eq!(ticked.escalation, LinePairs { pos, neg });
    if !matches!(came, Came::Nothing | Came::Opened) {
        story.set(story.turns + 1, sample.word);
    }
    story.check(h);
    assert!(h.valid());
}

/// Runs a handler whose first turn is due in its first tick.
fn story(numbers: &mut Numbers, odds: Odds, met: &mut [u32; 6]) {
    let mut h = driven();
    h.timer = Timer {
        enable: 1,
        timeout: [0, 1, 2, 3, 4, 5, 7, 9][numbers.below(8) as usize],
        ..Timer::new()
    };
    let mut story = Story {
        told: Vec::new(),
        turns: 0,
        due: 0,
        opened: None,
    };
    let mut lines = 0;
    for _ in 0..400 {
        for e in LINES {
            if numbers.below(odds.change) == 0 {
                lines ^= 1 << e;
            }
        }
        let sample = sample(numbers, &story, odds);
        step(&mut h, &mut story, lines, sample, met);
    }
}

#[test]
fn random_lines_and_pings_are_told_alike() {
    let mut numbers = Numbers(111);
    let never = u64::MAX / 8;
    let mut met = [0; 6];
    for older in [never, 40, 4, 1] {
        for fault in [never, 30, 5] {
            for change in [never, 60, 12, 4, 2] {
                for _ in 0..12 {
                    let odds = Odds {
                        older,
                        fault,
                        change,
                    };
                    story(&mut numbers, odds, &mut met);
                }
            }
        }
    }
    assert!(met.iter().all(|many| *many > 500), "{met:?}");
}
