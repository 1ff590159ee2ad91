//! What shows in one place alone: one class and phase, one edge of a width, two things in one tick. Chance meets them seldom,
//! so wires and accesses come by hand.

use super::counts;
use super::scene::Scene;
use crate::rng::Rng;
use handler::registers::{Field, Setting, INTR_ENABLE, INTR_STATE, INTR_TEST};
use handler::{Edition, CLASSES};

/// At rest, risen.
pub(super) const DOWN: (u64, u64) = (0, 1);
pub(super) const UP: (u64, u64) = (1, 0);

/// The ticks from one event of an alert to the next that it can have: rise, drop, and the rest of the pause.
pub(super) const HANDSHAKE: usize = 4;

/// A trace of such parts, for one class after another.
pub fn edges(edition: Edition, mut rng: Rng) -> Vec<u8> {
    let n = rng.pick(counts(edition)).max(2);
    let mut scene = Scene::new(edition, rng, n);
    scene.moving = false;
    scene.write(INTR_ENABLE, 15);
    let first = scene.rng.index(CLASSES);
    for k in (first..first + CLASSES).map(|k| k % CLASSES) {
        scene.own_class(k);
        for p in 0..4 {
            scene.clear_in_phase(k, p);
        }
        scene.far_timeouts(k);
        scene.far_thresholds(k);
        scene.timeout_at_the_trigger(k);
        scene.terminal(k);
        scene.together(k);
    }
    scene.counted(first);
    scene.locked_parts(first);
    scene.finish()
}

impl Scene {
    /// Two alerts, one at a border, are class k's; the class waits for one event more.
    fn own_class(&mut self, k: usize) {
        let i = self.any_active();
        self.active = vec![i, if i == 0 { self.n - 1 } else { 0 }];
        for i in self.active.clone() {
            self.configure(self.map.alert(Field::Class, i), k as u32);
            self.configure(self.map.alert(Field::En, i), 1);
        }
    }

    /// Gives class k these settings, and EN last.
    pub(super) fn settings(&mut self, k: usize, thresh: u32, timeout: u32, length: u32) {
        self.configure(self.map.class(k, Setting::AccumThresh), thresh);
        self.configure(self.map.class(k, Setting::TimeoutCyc), timeout);
        for phase in Setting::PHASES {
            self.configure(self.map.class(k, phase), length);
        }
        self.configure(self.map.class(k, Setting::Ctrl), 0x393D);
    }

    /// One event of the first alert, its drop and the pause: the next rise is taken again.
    pub(super) fn rise(&mut self, register: u16) {
        self.set(self.active[0], UP);
        self.read(register);
        self.set(self.active[0], DOWN);
        for _ in 0..HANDSHAKE - 1 {
            self.read(register);
        }
    }

    /// Reads what a class shows.
    pub(super) fn look(&mut self, k: usize) {
        for setting in [Setting::State, Setting::EscCnt, Setting::AccumCnt] {
            self.read(self.map.class(k, setting));
        }
    }

    /// A clear, then all of the class is at rest.
    pub(super) fn calm(&mut self, k: usize) {
        self.write(self.map.class(k, Setting::Clr), 1);
        self.write(INTR_STATE, 1 << k);
        self.look(k);
    }

    /// In phase p an event is counted and a clear ends the escalation, at the phase's last tick too; line p alone is on.
    fn clear_in_phase(&mut self, k: usize, p: usize) {
        // Both ways end after two handshakes and p lengths more: at the last tick of phase p.
        let length = 2 * HANDSHAKE as u32;
        self.settings(k, 0, 0, length);
        self.configure(self.map.class(k, Setting::Ctrl), 0x3901 | 4 << p);
        let state = self.map.class(k, Setting::State);
        for last in [false, true] {
            self.rise(state);
            for _ in 0..p * length as usize {
                self.read(state);
            }
            if last {
                (0..HANDSHAKE).for_each(|_| self.none());
            } else {
                self.rise(self.map.class(k, Setting::AccumCnt));
            }
            self.calm(k);
        }
    }

    /// Timeouts at multiples of 65,536 are due and wait.
    fn far_timeouts(&mut self, k: usize) {
        let timeout = self
            .rng
            .pick(&[0x1_0000, 0x2_0000, 0x8000_0000, 0xFFFF_0000]);
        self.settings(k, 9, timeout, 1);
        self.write(INTR_TEST, 1 << k);
        self.look(k);
        // An event below the threshold leaves the timeout's count.
        self.rise(self.map.class(k, Setting::EscCnt));
        self.write(INTR_STATE, 1 << k);
        self.calm(k);
    }

    /// Thresholds that a few events do not reach.
    fn far_thresholds(&mut self, k: usize) {
        let thresh = self.rng.pick(&[255, 256, 4096, 32767, 32768, 40000, 65533]);
        self.settings(k, thresh, 0, 1);
        for _ in 0..3 {
            self.rise(self.map.class(k, Setting::State));
        }
        self.calm(k);
    }

    /// A threshold between 21 and 600, reached by an event in each tick: equal wires and local 2.
    fn counted(&mut self, k: usize) {
        let thresh = 21 + self.rng.below(580) as u32;
        self.settings(k, thresh, 0, 2);
        self.configure(self.map.local(Field::Class, 2), k as u32);
        self.configure(self.map.local(Field::En, 2), 1);
        let i = self.active[1];
        for at in 0..thresh + 14 {
            self.set(i, if at % 2 == 0 { (0, 0) } else { (1, 1) });
            let setting = [Setting::AccumCnt, Setting::State][(at % 2) as usize];
            self.read(self.map.class(k, setting));
        }
        self.set(i, DOWN);
        self.calm(k);
    }
}
