//! Random waves at many alerts, beside a second telling of request (viii)
//! that goes back through what each alert's wires did.

mod common;

use common::timer::alert_due;
use common::waves::level;
use common::{new, tick, Numbers, COUNTS};
use reference::wires::wire;
use reference::{Access, Handler, Sample, Ticked};

/// What one alert's wires did, and its pings, told by ticks.
#[derive(Clone, Default)]
struct Story {
    /// The pairs of all ticks so far.
    pairs: Vec<(bool, bool)>,
    /// The tick in which the last rise was taken.
    taken: Option<usize>,
    /// The pings opened and those answered so far.
    opened: u32,
    answered: u32,
}

impl Story {
    /// The tick in which the last taken rise's drop was read.
    fn dropped(&self) -> Option<usize> {
        let after = self.taken? + 1;
        let drop = self.pairs[after..].iter().position(|p| *p == (false, true));
        drop.map(|ticks| after + ticks)
    }

    /// Whether the pair of the coming tick may be taken: no rise before it, or
    /// the last one dropped and two ticks of unequal wires passed since.
    fn ready(&self) -> bool {
        match (self.taken, self.dropped()) {
            (None, _) => true,
            (Some(_), None) => false,
            (Some(_), Some(drop)) => {
                let pause = self.pairs[drop + 1..].iter();
                pause.filter(|pair| pair.0 != pair.1).count() >= 2
            }
        }
    }

    /// Whether the coming tick acknowledges: a rise was taken, its drop is not
    /// read yet.
    fn acknowledges(&self) -> bool {
        self.taken.is_some() && self.dropped().is_none()
    }

    /// A tick; says whether it has an event.
    fn tick(&mut self, pair: (bool, bool), due: bool) -> bool {
        let now = self.pairs.len();
        if due && self.opened == self.answered {
            self.opened += 1;
        }
        let rises = pair == (true, false) && self.ready();
        self.pairs.push(pair);
        if !rises {
            return false;
        }
        self.taken = Some(now);
        let event = self.opened == self.answered;
        self.answered = self.opened;
        event
    }
}

/// Wires that move slowly enough for whole handshakes, some of them equal.
fn sample(numbers: &mut Numbers, before: &Sample) -> Sample {
    let mut sample = *before;
    for word in 0..4 {
        let turned = numbers.next() & numbers.next();
        sample.pos[word] ^= turned;
        let equal = numbers.next() & numbers.next() & numbers.next();
        sample.neg[word] = !sample.pos[word] ^ equal;
    }
    sample
}

/// A handler with some of its alerts enabled, in any class, and classes that
/// count and do not escalate.
fn handler(numbers: &mut Numbers, n: u64) -> Handler {
    let mut h = new(n);
    for alert in &mut h.alerts[..n as usize] {
        (alert.en, alert.class) = (numbers.below(4).min(1) as u8, numbers.below(4) as u8);
        alert.regwen = numbers.below(3).min(1) as u8 ^ 1;
    }
    for class in &mut h.classes {
        (class.ctrl, class.accum_thresh) = (0x393D, 65535);
    }
    h
}

/// While no ping is open, makes that of some alert due in the coming tick and
/// gives the alert. The alert must be locked and enabled, as about half are.
fn draw(numbers: &mut Numbers, h: &mut Handler) -> Option<usize> {
    let alerts = h.n as usize;
    if h.receivers[..alerts].iter().any(|receiver| receiver.open) {
        return None;
    }
    let i = numbers.below(h.n) as usize;
    h.timer = alert_due(i as u8);
    let opens = h.alerts[i].regwen == 0 && h.alerts[i].en == 1;
    Some(i).filter(|_| opens)
}

/// A tick: its wires, the alert whose ping opens in it, and what it gave.
type Told = (Sample, Option<usize>, Ticked);

/// Checks a tick against the stories and tells them on. Adds the events,
/// answers and rises not taken to those met.
fn check(h: &Handler, stories: &mut [Story], told: &Told, met: &mut [u32; 3]) {
    let (wires, due, ticked) = told;
    for (i, story) in stories.iter_mut().enumerate() {
        let acknowledged = level(&ticked.acknowledge, i) == '1';
        assert_eq!(acknowledged, story.acknowledges(), "{i}");
        let pair = (wire(&wires.pos, i), wire(&wires.neg, i));
        let answered = story.answered;
        let event = story.tick(pair, *due == Some(i));
        assert_eq!(level(&ticked.ping, i) == '1', story.opened % 2 == 1);
        assert_eq!(h.receivers[i].open, story.opened != story.answered);
        let enabled = h.alerts[i].en == 1;
        assert_eq!(h.alerts[i].cause == 1, event && enabled, "{i}");
        let taken = story.taken == Some(story.pairs.len() - 1);
        met[0] += u32::from(event);
        met[1] += u32::from(story.answered != answered);
        met[2] += u32::from(pair == (true, false) && !taken);
    }
    for i in stories.len()..256 {
        assert_eq!(level(&ticked.acknowledge, i), '0');
        assert_eq!(level(&ticked.ping, i), '0');
    }
}

#[test]
fn random_waves_are_told_alike() {
    let mut numbers = Numbers(81);
    let mut met = [0; 3];
    for n in COUNTS {
        let mut h = handler(&mut numbers, n);
        let mut stories = vec![Story::default(); n as usize];
        let mut wires = Sample::at_rest();
        for _ in 0..400 {
            wires = sample(&mut numbers, &wires);
            let counts = h.classes.map(|class| class.accum_cnt);
            h.alerts.iter_mut().for_each(|alert| alert.cause = 0);
            let due = draw(&mut numbers, &mut h);
            let ticked = tick(&mut h, Access::None, wires);
            check(&h, &mut stories, &(wires, due, ticked), &mut met);
            // However many causes a class has in a tick, it is one event.
            for (k, class) in h.classes.iter().enumerate() {
                let mut alerts = h.alerts.iter();
                let event = alerts.any(|a| a.cause == 1 && usize::from(a.class) == k);
                assert_eq!(class.accum_cnt, counts[k] + u16::from(event));
            }
        }
    }
    assert!(met.iter().all(|many| *many > 300), "{met:?}");
}
