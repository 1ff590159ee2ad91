//! Random ticks with the ping timer on, beside a second telling of request
//! (ix) that goes by the numbers of the ticks and of the turns. The ticks are
//! those of an older edition, with answer bits.

mod common;

use common::timer::answering;
use common::{new, tick, Numbers};
use reference::{Access, Handler, Place, Sample};

/// The timer, told by ticks.
struct Story {
    /// Whose turn it is: the turns that ended before it.
    turns: usize,
    /// The tick in which the turn's ping is due.
    due: usize,
    /// The alert that was drawn last.
    drawn: usize,
    /// The tick in which the open ping opened.
    opened: Option<usize>,
}

/// What a tick brought.
#[derive(Debug, PartialEq, Eq, Clone, Copy)]
enum Came {
    Nothing,
    Opened,
    Skipped,
    Answered,
    Failed,
}

impl Story {
    /// The line of the turn, if it is a line's.
    fn line(&self) -> Option<usize> {
        [None, Some(0), None, Some(1), None, Some(2), None, Some(3)][self.turns % 8]
    }

    /// The word of tick `now` sets the turn after `turns` others.
    fn set(&mut self, turns: usize, now: usize, word: u32) {
        self.turns = turns;
        self.due = now + (word % 65536) as usize + 1;
        if turns % 2 == 0 {
            self.drawn = (word / 65536 % 256) as usize;
        }
        self.opened = None;
    }

    /// Tells a tick by the handler's registers after its access, and by whether
    /// the turn's ping, if open, would be answered in it.
    fn tick(&mut self, now: usize, h: &Handler, answered: bool) -> Came {
        let mut came = Came::Nothing;
        if self.opened.is_none() {
            if now < self.due {
                return Came::Nothing;
            }
            assert_eq!(now, self.due);
            let alert = h.alerts[..h.n as usize].get(self.drawn);
            let pinged = alert.map_or(false, |alert| alert.regwen == 0 && alert.en == 1);
            if self.line().is_none() && !pinged {
                return Came::Skipped;
            }
            self.opened = Some(now);
            came = Came::Opened;
        }
        let timeout = usize::from(h.timer.timeout);
        if answered {
            Came::Answered
        } else if timeout > 0 && now >= self.opened.unwrap() + timeout {
            Came::Failed
        } else {
            came
        }
    }

    /// Checks where the handler stands after tick `now`.
    fn check(&self, now: usize, h: &Handler) {
        assert_eq!(usize::from(h.timer.number), self.turns % 256);
        assert_eq!(usize::from(h.timer.alert), self.drawn);
        let count = match self.opened {
            None => self.due - now - 1,
            Some(opened) => now - opened,
        };
        assert_eq!(usize::from(h.timer.count), count.min(65535));
        let open = self.opened.is_some();
        for e in 0..4 {
            let expected = open && self.line() == Some(e);
            assert_eq!(h.timer.lines >> e & 1 == 1, expected, "line {e}");
        }
        for i in 0..h.n as usize {
            let expected = open && self.line().is_none() && self.drawn == i;
            assert_eq!(h.receivers[i].open, expected, "alert {i}");
        }
    }
}

/// Whether the turn's ping would be answered: by a rise that is taken, or by
/// its answer bit.
fn answered(story: &Story, before: &Handler, sample: &Sample) -> bool {
    match story.line() {
        Some(e) => sample.answers >> e & 1 == 1,
        None if story.drawn as u64 >= before.n => false,
        None => {
            let i = story.drawn;
            let bit = |wires: &[u64; 4]| wires[i / 64] >> (63 - i % 64) & 1;
            let raised = (bit(&sample.pos), bit(&sample.neg)) == (1, 0);
            before.receivers[i].place == Place::Ready && raised
        }
    }
}

/// Wires that rise seldom, some of them equal, answers and a word.
fn sample(numbers: &mut Numbers, n: u64) -> Sample {
    let mut sample = Sample::at_rest();
    for word in 0..4 {
        let raised = numbers.next() & numbers.next() & numbers.next();
        sample.pos[word] = raised;
        sample.neg[word] = !raised ^ (numbers.next() & numbers.next() & numbers.next());
    }
    sample = answering(sample, (numbers.next() & numbers.next()) as u8);
    let alert = numbers.below(n + n / 4 + 1) as u32 % 256;
    let ticks = [0, 0, 1, 2, 5][numbers.below(5) as usize];
    sample.word = (numbers.next() as u32) << 24 | alert << 16 | ticks;
    sample
}

/// Now and then another timeout, a lock or an enable.
fn access(numbers: &mut Numbers, n: u64) -> Access {
    let i = numbers.below(n) as u16;
    let (register, value) = match numbers.below(20) {
        0..=5 => (5, numbers.below(3) as u32 * 3),
        6 => (256 + i, 0),
        7..=9 => (512 + i, 1),
        10 => (6, numbers.below(2) as u32),
        11 => return Access::Read { register: 6 },
        _ => return Access::None,
    };
    Access::Write { register, value }
}

/// A handler with about half of its alerts locked and most enabled, and local
/// 0 and 1 enabled.
fn handler(numbers: &mut Numbers, n: u64) -> Handler {
    let mut h = new(n);
    for alert in &mut h.alerts[..n as usize] {
        alert.regwen = numbers.below(2) as u8;
        alert.en = numbers.below(4).min(1) as u8;
    }
    (h.locals[0].en, h.locals[1].en) = (1, 1);
    h
}

/// Runs a handler from the tick in which its timer goes on; adds what came in
/// alerts' and in lines' turns to what was met.
fn run(numbers: &mut Numbers, n: u64, met: &mut [[u32; 5]; 2]) {
    let mut h = handler(numbers, n);
    let mut story = Story {
        turns: 0,
        due: 0,
        drawn: 0,
        opened: None,
    };
    let first = sample(numbers, n);
    let switch = Access::Write {
        register: 6,
        value: 1,
    };
    assert_eq!(tick(&mut h, switch, first).answer, 0);
    story.set(0, 0, first.word);
    story.check(0, &h);
    for now in 1..2500 {
        let before = h.clone();
        let (access, sample) = (access(numbers, n), sample(numbers, n));
        (h.locals[0].cause, h.locals[1].cause) = (0, 0);
        tick(&mut h, access, sample);
        let answered = answered(&story, &before, &sample);
        let came = story.tick(now, &h, answered);
        let line = usize::from(story.line().is_some());
        met[line][came as usize] += 1;
        let failed = [u8::from(came == Came::Failed); 2];
        assert_eq!(h.locals[line].cause, failed[line], "{came:?}");
        assert_eq!(h.locals[1 - line].cause, 0);
        if matches!(came, Came::Skipped | Came::Answered | Came::Failed) {
            story.set(story.turns + 1, now, sample.word);
        }
        story.check(now, &h);
        assert!(h.valid());
    }
}

#[test]
fn random_turns_are_told_alike() {
    let mut numbers = Numbers(101);
    let mut met = [[0; 5]; 2];
    for n in [1, 2, 3, 64, 65, 200, 248] {
        for _ in 0..4 {
            run(&mut numbers, n, &mut met);
        }
    }
    // All of it came in both, but no line's turn is skipped.
    for (line, met) in met.iter().enumerate() {
        for came in [0, 1, 3, 4] {
            assert!(met[came] > 300, "{line}: {met:?}");
        }
    }
    assert!(met[0][2] > 300 && met[1][2] == 0, "{met:?}");
}
