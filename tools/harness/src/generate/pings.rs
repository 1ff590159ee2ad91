//! The ping timer: short waits, timeouts from 0 up that change while a ping is open, alerts that are locked and enabled at any time
//! of a turn, answers early, late and of other lines, the enable written again, and words that draw alerts which are not there.

use super::counts;
use super::scene::Scene;
use crate::record::{Head, NONE, WRITE};
use crate::rng::Rng;
use handler::registers::{Field, Setting, INTR_ENABLE, INTR_STATE};
use handler::registers::{PING_ENABLE, PING_REGWEN, PING_TIMEOUT};
use handler::{Edition, CLASSES};

/// Steps of a trace.
const STEPS: usize = 500;

/// Timeouts that a few ticks reach, 0 among them.
const TIMEOUTS: [u32; 8] = [0, 0, 1, 1, 2, 3, 5, 8];

/// A trace of turns.
pub fn pings(edition: Edition, mut rng: Rng) -> Vec<u8> {
    let n = rng.pick(counts(edition));
    let mut scene = Scene::new(edition, rng, n);
    for _ in 0..6 {
        let i = scene.rng.index(scene.n);
        scene.active.push(i);
    }
    // The more often wires move, the sooner pings are answered.
    scene.calm = scene.rng.pick(&[4, 10, 40]);
    scene.set_up_pings();
    for _ in 0..STEPS {
        scene.ping_step();
    }
    scene.finish()
}

impl Scene {
    /// Local 0 and 1 in two classes that count, alerts in a third, some of them locked; then the timer, mostly on.
    fn set_up_pings(&mut self) {
        let (map, k) = (self.map, self.focus);
        self.write(INTR_ENABLE, 15);
        for class in 0..CLASSES {
            let thresh = self.rng.pick(&[65535, 65535, 65535, 2]);
            self.configure(map.class(class, Setting::AccumThresh), thresh);
            self.configure(map.class(class, Setting::Ctrl), 0x393D);
        }
        for j in 0..2 {
            let class = (k + j) % CLASSES;
            self.configure(map.local(Field::Class, j), class as u32);
            let en = u32::from(!self.rng.once_in(8));
            self.configure(map.local(Field::En, j), en);
        }
        for i in self.active.clone() {
            self.configure(map.alert(Field::Class, i), ((k + 2) % CLASSES) as u32);
            let en = u32::from(!self.rng.once_in(3));
            self.configure(map.alert(Field::En, i), en);
            if self.rng.once_in(2) {
                self.write(map.alert(Field::Regwen, i), 0);
            }
        }
        self.aim();
        self.set_up_timer();
    }

    /// The timeout, the enable and at times the lock: locked before it is on, the timer stays off.
    pub(super) fn set_up_timer(&mut self) {
        let timeout = self.rng.pick(&TIMEOUTS);
        self.configure(PING_TIMEOUT, timeout);
        if self.rng.once_in(16) {
            self.write(PING_REGWEN, 0);
        }
        self.write(PING_ENABLE, 1);
        if self.rng.once_in(16) {
            self.write(PING_REGWEN, 0);
        }
    }

    /// Words draw another of the active alerts from here on, or one that is not there.
    fn aim(&mut self) {
        let (i, n) = (self.any_active(), self.n);
        let target = self.rng.pick(&[i, i, i, i, i, i, n.min(255), 255]);
        if let Some(entropy) = &mut self.entropy {
            entropy.target = target;
        }
    }

    /// The alert that words draw, or an active one where that is not there.
    fn target(&mut self) -> usize {
        let any = self.any_active();
        let drawn = self.entropy.as_ref().map_or(any, |it| it.target);
        if drawn < self.n {
            drawn
        } else {
            any
        }
    }

    /// One weighted step.
    fn ping_step(&mut self) {
        let map = self.map;
        let bit = self.rng.below(2) as u32;
        match self
            .rng
            .weighted(&[500, 40, 40, 60, 50, 50, 60, 2, 20, 40, 20, 20, 20])
        {
            0 => self.watch_pings(),
            1 => self.none(),
            2 => self.write(PING_ENABLE, bit),
            3 => self.change_timeout(),
            4 => self.lock_one(),
            5 => {
                let i = self.target();
                let en = self.rng.pick(&[0, 1, 1, 1]);
                self.configure(map.alert(Field::En, i), en);
            }
            6 => self.aim(),
            7 => self.write(PING_REGWEN, bit),
            8 => self.malformed_tail(),
            9 => {
                let j = self.rng.index(2);
                self.write(map.local(Field::Cause, j), 1);
            }
            10 => {
                let (j, en) = (self.rng.index(2), self.rng.pick(&[0, 1, 1, 1]));
                self.configure(map.local(Field::En, j), en);
            }
            11 => self.too_wide_for_the_timer(),
            _ => self.clear(),
        }
    }

    /// An alert that words draw is enabled and then locked, in any tick of a turn; it was locked before at times.
    fn lock_one(&mut self) {
        let (map, i) = (self.map, self.rng.index(self.n));
        if let Some(entropy) = &mut self.entropy {
            entropy.target = i;
        }
        self.configure(map.alert(Field::En, i), 1);
        for _ in 0..self.rng.below(6) {
            self.watch_pings();
        }
        self.write(map.alert(Field::Regwen, i), 0);
        for _ in 0..self.rng.below(4) {
            self.watch_pings();
        }
    }

    /// Reads where a failed ping and an event show.
    fn watch_pings(&mut self) {
        let (map, k, j) = (self.map, self.focus, self.rng.index(2));
        let i = self.target();
        let register = match self.rng.weighted(&[8, 4, 4, 3, 2, 2, 1]) {
            0 => map.class((k + j) % CLASSES, Setting::AccumCnt),
            1 => map.local(Field::Cause, j),
            2 => map.class((k + 2) % CLASSES, Setting::AccumCnt),
            3 => map.alert(Field::Cause, i),
            4 => INTR_STATE,
            5 => PING_TIMEOUT,
            _ => self.rng.pick(&[PING_REGWEN, PING_ENABLE]),
        };
        self.read(register);
    }

    /// Another timeout by two writes, at times a second one that differs.
    fn change_timeout(&mut self) {
        let timeout = self.rng.pick(&TIMEOUTS);
        self.write(PING_TIMEOUT, timeout);
        for _ in 0..self.rng.below(3) {
            self.watch_pings();
        }
        let other = self.rng.once_in(6);
        self.write(PING_TIMEOUT, timeout ^ u32::from(other));
    }

    /// A record with a zero bit of its last byte at 1; its word and its answers count all the same.
    fn malformed_tail(&mut self) {
        let head = self
            .rng
            .pick(&[Head::new(NONE, 0, 0), Head::new(WRITE, PING_TIMEOUT, 1)]);
        let zeros = 0x10 << self.rng.below(4);
        self.tick_spoilt(head, zeros);
    }

    /// A bit outside the field of one of the timer's registers.
    pub(super) fn too_wide_for_the_timer(&mut self) {
        let registers = [(PING_REGWEN, 1), (PING_TIMEOUT, 16), (PING_ENABLE, 1)];
        let (register, bits) = self.rng.pick(&registers);
        let low = self.rng.bits() as u32 & ((1 << bits) - 1);
        let value = self.rng.pick(&[1 << bits, 1 << bits | low, 1 << 31]);
        self.write(register, value);
    }
}
