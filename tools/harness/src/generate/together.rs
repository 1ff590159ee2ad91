//! Two and more things in one tick, and what a rule must not read or change beside what it names.

use super::edges::{DOWN, UP};
use super::scene::Scene;
use handler::registers::{Field, Setting, INTR_STATE};
use handler::CLASSES;

impl Scene {
    /// TIMEOUT_CYC becomes 0 in the tick of a trigger, which starts all the same; without one the timeout ends.
    pub(super) fn timeout_at_the_trigger(&mut self, k: usize) {
        let timeout = self.map.class(k, Setting::TimeoutCyc);
        for trigger in [true, false] {
            // The first event starts the timeout, which is not due before the second.
            self.settings(k, 1, 9, 2);
            self.rise(self.map.class(k, Setting::State));
            self.write(timeout, 0);
            if trigger {
                self.set(self.active[0], UP);
            }
            self.write(timeout, 0);
            self.set(self.active[0], DOWN);
            self.calm(k);
        }
    }

    /// To Terminal, where events count on and EN is not read; ACCUM_CNT is kept on the way.
    pub(super) fn terminal(&mut self, k: usize) {
        self.settings(k, 0, 0, 0);
        self.rise(self.map.class(k, Setting::AccumCnt));
        for _ in 0..4 {
            self.read(self.map.class(k, Setting::State));
        }
        self.rise(self.map.class(k, Setting::AccumCnt));
        self.configure(self.map.class(k, Setting::Ctrl), 0x393C);
        self.calm(k);
        // EN goes while a phase drives its line.
        self.settings(k, 0, 0, 6);
        self.rise(self.map.class(k, Setting::State));
        self.configure(self.map.class(k, Setting::Ctrl), 0x393C);
        self.look(k);
        self.calm(k);
    }

    /// Two alerts of two classes, equal wires beside a rise, a CAUSE that is written while its wire stays up.
    pub(super) fn together(&mut self, k: usize) {
        let [i, j] = [self.active[0], self.active[1]];
        let other = (k + 1) % CLASSES;
        self.settings(k, 0, 0, 2);
        self.settings(other, 0, 0, 2);
        self.configure(self.map.alert(Field::Class, j), other as u32);
        self.configure(self.map.local(Field::Class, 2), other as u32);
        self.configure(self.map.local(Field::En, 2), 1);
        for pair in [UP, (1, 1)] {
            self.set(i, UP);
            self.set(j, pair);
            self.read(self.map.alert(Field::Cause, j));
            // Equal wires in any place of the handshake: local 2 occurs again, its cause is 1 already.
            self.set(j, (1, 1));
            self.read(self.map.class(other, Setting::AccumCnt));
            self.write(self.map.alert(Field::Cause, i), 1);
            self.read(self.map.alert(Field::Cause, i));
            self.write(self.map.alert(Field::Cause, i), 1);
            self.read(self.map.alert(Field::Cause, i));
            self.set_active(DOWN);
            self.calm(k);
            self.calm(other);
        }
        self.at_once(k);
        self.configure(self.map.local(Field::En, 2), 0);
        self.configure(self.map.alert(Field::Class, j), k as u32);
    }

    /// An event in the tick that clears its class, its cause or its interrupt, and in the one that gives its alert EN.
    fn at_once(&mut self, k: usize) {
        let i = self.active[0];
        let en = self.map.alert(Field::En, i);
        for (register, value) in [
            (self.map.class(k, Setting::Clr), 1),
            (self.map.class(k, Setting::Clr), 0),
            (self.map.alert(Field::Cause, i), 1),
            (INTR_STATE, 1 << k),
            (en, 1),
        ] {
            if register == en {
                self.configure(en, 0);
                self.write(en, 1);
            }
            self.set(i, UP);
            self.write(register, value);
            self.set(i, DOWN);
            self.read(self.map.alert(Field::Cause, i));
            self.read(INTR_STATE);
            self.calm(k);
        }
    }

    /// What locks for good comes last: alerts that are locked, a CLR that is locked by software, values too wide for what is locked.
    pub(super) fn locked_parts(&mut self, k: usize) {
        self.settings(k, 0, 0, 1);
        self.write(self.map.alert(Field::Regwen, self.active[0]), 0);
        self.rise(self.map.alert(Field::Cause, self.active[0]));
        self.calm(k);
        for class in 0..CLASSES {
            self.read(self.map.class(class, Setting::Clr));
        }
        let clear = self.map.class(k, Setting::Clr);
        self.write(self.map.class(k, Setting::ClrRegwen), 0);
        self.write(clear, 2);
        self.write(clear, 0);
        self.rise(self.map.class(k, Setting::State));
        self.write(clear, 1);
        self.look(k);
    }
}
