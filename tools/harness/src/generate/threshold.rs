//! The steps about locking a class that waits for 65,535 or 65,536 events. An
//! accepted lock is for good, so most steps have a refused one.

use super::scene::Scene;
use handler::registers::{Field, Setting};
use handler::{CLASSES, LOCALS};

/// The most that ACCUM_THRESH holds, with which EN is not locked.
const SILLY: u32 = 65535;

impl Scene {
    /// One of the families of such locks.
    pub fn threshold(&mut self) {
        let k = self.rng.index(CLASSES);
        match self.rng.below(40) {
            0 => self.lock_below(k),
            1 => self.lock_without_en(k),
            2 => self.lock_while_staged(k),
            3..=6 => self.lock_by_other_values(k),
            7..=9 => self.other_lock(k),
            10..=15 => self.mended_by_a_stage(k),
            _ => self.silly_lock(k),
        }
    }

    /// EN and 65535: refused, more than once, and the class is open.
    fn silly_lock(&mut self, k: usize) {
        self.waits(k, 1, SILLY);
        for _ in 0..1 + self.rng.below(3) {
            self.lock_class(k);
        }
        self.read(self.map.class(k, Setting::Regwen));
    }

    /// EN and 65534: locked, and a 0 is accepted again.
    fn lock_below(&mut self, k: usize) {
        self.waits(k, 1, SILLY - 1);
        self.lock_class(k);
        self.lock_class(k);
        self.write(self.map.class(k, Setting::AccumThresh), SILLY);
        self.read(self.map.class(k, Setting::AccumThresh));
    }

    /// 65535 without EN, which no write gives it afterwards.
    fn lock_without_en(&mut self, k: usize) {
        self.waits(k, 0, SILLY);
        self.lock_class(k);
        self.lock_class(k);
        self.write(self.map.class(k, Setting::Ctrl), 0x393D);
        self.read(self.map.class(k, Setting::Ctrl));
    }

    /// Half of it is staged only: locked, and the second write is too late.
    fn lock_while_staged(&mut self, k: usize) {
        let (en, thresh) = if self.rng.once_in(2) {
            (0, SILLY)
        } else {
            (1, SILLY - 1)
        };
        self.waits(k, en, thresh);
        let (setting, value) = match en {
            0 => (Setting::Ctrl, 0x393D),
            _ => (Setting::AccumThresh, SILLY),
        };
        self.write(self.map.class(k, setting), value);
        self.lock_class(k);
        self.write(self.map.class(k, setting), value);
        self.read(self.map.class(k, setting));
    }

    /// What would mend it is staged only: refused, and the stage waits on.
    fn mended_by_a_stage(&mut self, k: usize) {
        self.waits(k, 1, SILLY);
        let (setting, value) = if self.rng.once_in(2) {
            (Setting::Ctrl, 0x393C)
        } else {
            (Setting::AccumThresh, SILLY - 1)
        };
        self.write(self.map.class(k, setting), value);
        self.lock_class(k);
        self.write(self.map.class(k, setting), value);
        self.read(self.map.class(k, setting));
    }

    /// A 1 is accepted, and a value that is too wide is refused as such.
    fn lock_by_other_values(&mut self, k: usize) {
        self.waits(k, 1, SILLY);
        let value = self.rng.pick(&[1, 2, 2, 3, SILLY, 1 << 31, u32::MAX]);
        self.write(self.map.class(k, Setting::Regwen), value);
        self.read(self.map.class(k, Setting::Regwen));
    }

    /// Another lock falls beside such a class: CLR_REGWEN seldom.
    fn other_lock(&mut self, k: usize) {
        self.waits(k, 1, SILLY);
        let (i, j) = (self.rng.index(self.n), self.rng.index(LOCALS));
        let register = match self.rng.below(5) {
            0 => self.map.class(k, Setting::ClrRegwen),
            1 | 2 => self.map.local(Field::Regwen, j),
            _ => self.map.alert(Field::Regwen, i),
        };
        self.write(register, 0);
        self.read(register);
    }

    /// Gives a class EN or not, with any lines, and a threshold.
    fn waits(&mut self, k: usize, en: u32, thresh: u32) {
        let any = self.rng.bits() as u32 & 0x3FFC;
        // The last has no line: EN is the bit all the same.
        let lines = self.rng.pick(&[0x393C, 0x393C, any, any & 0x3FC0]);
        self.configure(self.map.class(k, Setting::Ctrl), lines | en);
        self.configure(self.map.class(k, Setting::AccumThresh), thresh);
    }

    fn lock_class(&mut self, k: usize) {
        self.write(self.map.class(k, Setting::Regwen), 0);
    }
}
