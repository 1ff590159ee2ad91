//! Escalations on the lines: of one tick and two, with gaps of one, pings at each distance before and after them, timeouts from 1 up,
//! and answers that are wrong, missing, late or equal.

use super::counts;
use super::scene::Scene;
use crate::rng::Rng;
use handler::registers::{Field, Setting, INTR_ENABLE, INTR_STATE};
use handler::registers::{PING_ENABLE, PING_TIMEOUT};
use handler::{Edition, CLASSES};

/// Steps of a trace.
const STEPS: usize = 500;

/// Lengths of phases, and so of lines.
const LENGTHS: [u32; 7] = [0, 1, 1, 1, 2, 2, 3];

/// Timeouts around the four answers to a ping.
const TIMEOUTS: [u32; 10] = [0, 1, 2, 3, 4, 4, 5, 5, 7, 20];

/// A trace of short escalations and pings.
pub fn escalations(edition: Edition, mut rng: Rng) -> Vec<u8> {
    let n = rng.pick(counts(edition));
    let mut scene = Scene::new(edition, rng, n);
    scene.calm = scene.rng.pick(&[2, 4, 10]);
    if let Some(entropy) = &mut scene.entropy {
        entropy.waits = &[0, 0, 1, 2, 3, 4, 5, 6, 8, 12];
        // Of no alert: lines come sooner.
        entropy.target = 255;
        entropy.stirs = 6;
    }
    scene.set_up_escalations();
    for _ in 0..STEPS {
        scene.escalation_step();
    }
    scene.finish()
}

impl Scene {
    /// Two classes that escalate at each event, and two that count local 1 and local 3.
    fn set_up_escalations(&mut self) {
        let (map, k) = (self.map, self.focus);
        self.write(INTR_ENABLE, 15);
        for at in 0..CLASSES {
            let class = (k + at) % CLASSES;
            if at < 2 {
                self.short_lines(class);
            } else {
                self.configure(map.class(class, Setting::AccumThresh), 65535);
                self.configure(map.class(class, Setting::Ctrl), 0x393D);
            }
        }
        for (j, class) in [(1, k + 2), (3, k + 3)] {
            self.configure(map.local(Field::Class, j), (class % CLASSES) as u32);
            let en = u32::from(!self.rng.once_in(8));
            self.configure(map.local(Field::En, j), en);
        }
        for (at, i) in self.active.clone().into_iter().enumerate() {
            self.configure(map.alert(Field::Class, i), ((k + at % 2) % CLASSES) as u32);
            self.configure(map.alert(Field::En, i), 1);
        }
        let timeout = self.rng.pick(&TIMEOUTS);
        self.configure(PING_TIMEOUT, timeout);
        self.write(PING_ENABLE, 1);
    }

    /// Short phases, and any of them for each line.
    fn short_lines(&mut self, class: usize) {
        let map = self.map;
        for phase in Setting::PHASES {
            let length = self.rng.pick(&LENGTHS);
            self.configure(map.class(class, phase), length);
        }
        let maps = self.rng.bits() as u32 & 0x3FC0;
        self.configure(map.class(class, Setting::Ctrl), maps | 0x3D);
    }

    /// One weighted step.
    fn escalation_step(&mut self) {
        let (map, k) = (self.map, self.focus);
        let class = (k + self.rng.index(2)) % CLASSES;
        match self.rng.weighted(&[60, 10, 22, 2, 3, 2, 2, 1]) {
            0 => self.watch_lines(),
            1 => self.none(),
            2 => self.write(map.class(class, Setting::Clr), 1),
            3 => self.short_lines(class),
            4 => {
                let timeout = self.rng.pick(&TIMEOUTS);
                self.configure(PING_TIMEOUT, timeout);
            }
            5 => {
                if let Some(lines) = &mut self.lines {
                    lines.break_one();
                }
                self.none();
            }
            6 => {
                let j = self.rng.pick(&[1, 3]);
                self.write(map.local(Field::Cause, j), 1);
            }
            _ => {
                let (j, en) = (self.rng.pick(&[1, 3]), self.rng.pick(&[0, 1, 1, 1]));
                self.configure(map.local(Field::En, j), en);
            }
        }
    }

    /// Reads where a fault, a failed ping and a line show.
    fn watch_lines(&mut self) {
        let (map, k) = (self.map, self.focus);
        let class = |at: usize| (k + at) % CLASSES;
        let register = match self.rng.weighted(&[6, 4, 2, 2, 3, 2, 1]) {
            0 => map.class(class(3), Setting::AccumCnt),
            1 => map.class(class(2), Setting::AccumCnt),
            2 => map.local(Field::Cause, 1),
            3 => map.local(Field::Cause, 3),
            4 => map.class(class(0), Setting::State),
            5 => map.class(class(1), Setting::State),
            _ => INTR_STATE,
        };
        self.read(register);
    }
}
