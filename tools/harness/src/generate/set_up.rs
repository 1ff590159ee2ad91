//! The steps that set up, at the start and in mid course.

use super::profile::Values;
use super::scene::Scene;
use handler::registers::{Field, Setting, INTR_ENABLE};
use handler::{CLASSES, LOCALS};

/// What a class's REGWEN guards beside CTRL.
const GUARDED: [Setting; 6] = [
    Setting::AccumThresh,
    Setting::TimeoutCyc,
    Setting::Phase0Cyc,
    Setting::Phase1Cyc,
    Setting::Phase2Cyc,
    Setting::Phase3Cyc,
];

impl Scene {
    /// Configures interrupts, alerts and all classes.
    pub fn set_up(&mut self, values: &Values) {
        let enable = self.rng.pick(&[15, 15, 15, 0, 5, 10]);
        self.write(INTR_ENABLE, enable);
        for at in 0..self.active.len() {
            self.configure_alert(self.active[at]);
        }
        for &j in self.occurring() {
            if self.rng.once_in(2) {
                self.configure_local(j);
            }
        }
        if self.rng.once_in(4) {
            let j = self.rng.index(LOCALS);
            self.configure_local(j);
        }
        for k in 0..CLASSES {
            self.configure_class(k, values);
        }
        if self.map.timer && !self.rng.once_in(4) {
            self.set_up_turns();
        }
    }

    /// The ping timer, mostly on, with some of the alerts locked: those that a
    /// trace changes are the others.
    fn set_up_turns(&mut self) {
        for at in (0..self.active.len()).step_by(2) {
            let i = self.active[at];
            self.write(self.map.alert(Field::Regwen, i), 0);
            if let Some(entropy) = &mut self.entropy {
                entropy.target = i;
            }
        }
        self.set_up_timer();
    }

    fn configure_alert(&mut self, i: usize) {
        let k = self.any_class();
        self.configure(self.map.alert(Field::Class, i), k as u32);
        let en = u32::from(!self.rng.once_in(8));
        self.configure(self.map.alert(Field::En, i), en);
    }

    pub(super) fn configure_local(&mut self, j: usize) {
        let k = self.any_class();
        self.configure(self.map.local(Field::Class, j), k as u32);
        self.configure(self.map.local(Field::En, j), 1);
    }

    fn configure_class(&mut self, k: usize, values: &Values) {
        // CTRL comes last so that a class starts whole.
        for setting in GUARDED {
            let value = self.value_for(setting, values);
            // 0 is the value at reset and needs no write.
            if value != 0 {
                self.configure(self.map.class(k, setting), value);
            }
        }
        let ctrl = self.value_for(Setting::Ctrl, values);
        self.configure(self.map.class(k, Setting::Ctrl), ctrl);
    }

    /// A value for a class register that REGWEN guards.
    pub(super) fn value_for(&mut self, setting: Setting, values: &Values) -> u32 {
        match setting {
            Setting::Ctrl => {
                let en = u32::from(!self.rng.once_in(8));
                let lock = u32::from(self.rng.once_in(values.lock_once_in)) << 1;
                let lines = match self.rng.below(4) {
                    0 => 0x393C,
                    1 => (self.rng.bits() as u32 & 0x3FC0) | 0x3C,
                    // One line, or none: then the class is off.
                    2 => (self.rng.bits() as u32 & 0x3FC0) | (4 << self.rng.below(5)) & 0x3C,
                    _ => self.rng.bits() as u32 & 0x3FFC,
                };
                lines | lock | en
            }
            Setting::AccumThresh => self.rng.pick(values.thresholds),
            Setting::TimeoutCyc => self.rng.pick(values.timeouts),
            _ => self.rng.pick(values.lengths),
        }
    }

    /// Changes one register of the configuration in mid course.
    pub fn change(&mut self, values: &Values) {
        let k = self.any_class();
        let i = self.any_active();
        match self.rng.below(8) {
            0 => self.configure_alert(i),
            1 => {
                let (j, en) = (self.rng.pick(self.occurring()), self.rng.below(2) as u32);
                self.configure(self.map.local(Field::En, j), en);
            }
            2 => {
                let j = self.rng.pick(self.occurring());
                self.configure(self.map.local(Field::Class, j), k as u32);
            }
            3 | 4 => {
                let ctrl = self.value_for(Setting::Ctrl, values);
                self.configure(self.map.class(k, Setting::Ctrl), ctrl);
            }
            _ => {
                let setting = self.rng.pick(&GUARDED);
                let value = self.value_for(setting, values);
                self.configure(self.map.class(k, setting), value);
            }
        }
    }
}
