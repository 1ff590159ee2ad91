//! Handshakes by hand: rises and equal wires in each of their places, rises that wait for the end of the pause or are gone before
//! it, alerts that are enabled in the middle of one.

use super::counts;
use super::edges::{DOWN, UP};
use super::scene::Scene;
use crate::rng::Rng;
use handler::registers::{Field, Setting, INTR_ENABLE};
use handler::{Edition, CLASSES};

/// Handshakes in a trace.
const HANDSHAKES: usize = 60;

/// A trace of handshakes, of one alert at a time.
pub fn handshakes(edition: Edition, mut rng: Rng) -> Vec<u8> {
    let n = rng.pick(counts(edition));
    let mut scene = Scene::new(edition, rng, n);
    scene.moving = false;
    scene.write(INTR_ENABLE, 15);
    let k = scene.focus;
    // Events are counted and start nothing; local 2's go to another class.
    let (thresh, other) = (u32::from(u16::MAX), (k + 1) % CLASSES);
    for class in [k, other] {
        scene.configure(scene.map.class(class, Setting::AccumThresh), thresh);
        scene.configure(scene.map.class(class, Setting::Ctrl), 0x393D);
    }
    scene.configure(scene.map.local(Field::Class, 2), other as u32);
    scene.configure(scene.map.local(Field::En, 2), 1);
    for at in 0..scene.active.len() {
        let i = scene.active[at];
        scene.configure(scene.map.alert(Field::Class, i), k as u32);
        scene.configure(scene.map.alert(Field::En, i), 1);
    }
    for _ in 0..HANDSHAKES {
        let i = scene.any_active();
        scene.handshake(i);
    }
    scene.finish()
}

impl Scene {
    /// A rise, its drop and the pause, each place with equal wires now and then; what comes in the pause may wait or be gone.
    fn handshake(&mut self, i: usize) {
        let disabled = self.rng.once_in(6);
        if disabled {
            self.configure(self.map.alert(Field::En, i), 0);
        }
        // Enabled again in one of the places: the ready one apart, the rise before is then no event.
        let enabled_at = self.rng.below(5);
        let in_pause = [UP, DOWN];
        let (first, second) = (self.rng.pick(&in_pause), self.rng.pick(&in_pause));
        let stays = self.rng.pick(&[0, 0, 1, 3]);
        for (place, pair) in (0..).zip([DOWN, UP, DOWN, first, second]) {
            if disabled && place == enabled_at {
                self.configure(self.map.alert(Field::En, i), 1);
            }
            self.hold(i);
            self.show(i, pair);
            for _ in 0..if place == 1 { stays } else { 0 } {
                self.show(i, UP);
            }
        }
        // Taken now if it is up: what was up in the pause has waited.
        let last = self.rng.pick(&[UP, DOWN, second]);
        self.hold(i);
        self.show(i, last);
        self.settle(i);
    }

    /// Equal wires for a tick or two, mostly none.
    fn hold(&mut self, i: usize) {
        let ticks = self.rng.pick(&[0, 0, 0, 1, 1, 2]);
        for _ in 0..ticks {
            let level = self.rng.below(2);
            self.show(i, (level, level));
        }
    }

    /// A tick with this pair on the alert's wires; it reads where an event shows.
    fn show(&mut self, i: usize, pair: (u64, u64)) {
        self.set(i, pair);
        let k = self.focus;
        let class = self.rng.pick(&[k, k, k, (k + 1) % CLASSES]);
        let count = self.map.class(class, Setting::AccumCnt);
        let cause = self.map.alert(Field::Cause, i);
        match self.rng.below(8) {
            0 => self.read(cause),
            1 => self.write(cause, 1),
            _ => self.read(count),
        }
    }

    /// The drop and the pause: after these ticks at rest a rise of the alert is taken.
    fn settle(&mut self, i: usize) {
        self.set(i, DOWN);
        for _ in 0..3 {
            self.read(self.map.class(self.focus, Setting::AccumCnt));
        }
    }
}
