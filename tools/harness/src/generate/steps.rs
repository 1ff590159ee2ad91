//! The single steps of a trace: what one tick, or a few, ask of the handler.

use super::scene::Scene;
use handler::registers::{Field, Setting, INTR_ENABLE, INTR_STATE, INTR_TEST};
use handler::registers::{PING_ENABLE, PING_REGWEN, PING_TIMEOUT};
use handler::{CLASSES, LOCALS};

impl Scene {
    /// The local alerts that occur: by equal wires, by writes that differ, and
    /// where there is a ping timer by pings that fail, where there are receive
    /// pairs by wrong ones.
    pub(super) fn occurring(&self) -> &'static [usize] {
        match self.map.timer {
            true if self.edition.has_receive() => &[2, 5, 0, 1, 3],
            true => &[2, 5, 0, 1],
            false => &[2, 5],
        }
    }

    /// Reads what shows the state.
    pub fn watch(&mut self) {
        let k = self.any_class();
        let i = self.any_active();
        let register = match self.rng.weighted(&[6, 5, 5, 3, 4, 1, 1, 1, 1]) {
            0 => self.map.class(k, Setting::State),
            1 => self.map.class(k, Setting::EscCnt),
            2 => self.map.class(k, Setting::AccumCnt),
            3 => INTR_STATE,
            4 => self.map.alert(Field::Cause, i),
            5 => self
                .map
                .local(Field::Cause, self.rng.pick(self.occurring())),
            6 => self.map.class(k, Setting::Ctrl),
            7 => self.map.class(k, Setting::ClrRegwen),
            _ => self.any_readable(),
        };
        self.read(register);
    }

    fn any_readable(&mut self) -> u16 {
        let k = self.rng.index(CLASSES);
        let field = self.rng.pick(&Field::ALL);
        match self.rng.below(4) {
            0 if self.map.timer => {
                self.rng
                    .pick(&[INTR_ENABLE, PING_REGWEN, PING_TIMEOUT, PING_ENABLE])
            }
            0 => INTR_ENABLE,
            1 => self.map.local(field, self.rng.index(LOCALS)),
            2 => self.map.alert(field, self.rng.index(self.n)),
            _ => self.map.class(k, self.rng.pick(&Setting::READABLE)),
        }
    }

    /// Writes CLR, mostly a 1.
    pub fn clear(&mut self) {
        let k = self.any_class();
        let value = u32::from(!self.rng.once_in(6));
        self.write(self.map.class(k, Setting::Clr), value);
    }

    /// All active alerts rise at once; so many ticks later comes a clear of
    /// the class or of its interrupt. By chance alone this is rare.
    pub fn burst(&mut self, gap: u64) {
        self.moving = false;
        self.set_active((0, 1));
        // A drop and the pause, wherever an alert stands.
        for _ in 0..3 {
            self.watch();
        }
        self.set_active((1, 0));
        for _ in 0..gap {
            self.watch();
        }
        let k = self.focus;
        if self.rng.once_in(4) {
            self.write(INTR_STATE, 1 << k);
        } else {
            self.write(self.map.class(k, Setting::Clr), 1);
        }
        self.read(self.map.class(k, Setting::State));
        self.moving = true;
    }

    /// Clears, tests or enables interrupts.
    pub fn interrupts(&mut self) {
        let register = self.rng.pick(&[
            INTR_STATE,
            INTR_STATE,
            INTR_STATE,
            INTR_TEST,
            INTR_TEST,
            INTR_ENABLE,
        ]);
        let bit = 1 << self.any_class();
        let some = self.rng.below(16) as u32;
        let value = self.rng.pick(&[bit, bit, 15, some]);
        self.write(register, value);
    }

    /// Clears a cause, or writes the 0 that keeps it.
    pub fn cause(&mut self) {
        let value = u32::from(!self.rng.once_in(4));
        let i = self.any_active();
        let register = if self.rng.once_in(4) {
            self.map
                .local(Field::Cause, self.rng.pick(self.occurring()))
        } else {
            self.map.alert(Field::Cause, i)
        };
        self.write(register, value);
    }

    /// Writes one of the REGWENs.
    pub fn lock(&mut self) {
        let k = self.any_class();
        let i = self.rng.index(self.n);
        let j = self.rng.index(LOCALS);
        let register = match self.rng.below(4 + u64::from(self.map.timer)) {
            0 => self.map.class(k, Setting::Regwen),
            1 => self.map.class(k, Setting::ClrRegwen),
            2 => self.map.alert(Field::Regwen, i),
            3 => self.map.local(Field::Regwen, j),
            _ => PING_REGWEN,
        };
        let value = self.rng.below(2) as u32;
        self.write(register, value);
    }
}
