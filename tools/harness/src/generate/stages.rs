//! The steps about stages: what comes between the two writes of a shadowed
//! register, and what follows them. Each ends with a read where it shows.

use super::profile::Values;
use super::scene::Scene;
use handler::registers::{Field, Setting, PING_REGWEN, PING_TIMEOUT, PING_TIMEOUT_BITS};
use handler::LOCALS;

/// A shadowed register, the REGWEN that guards it, and a value for it.
#[derive(Clone, Copy)]
struct Shadowed {
    register: u16,
    guard: u16,
    bits: u32,
    value: u32,
}

impl Shadowed {
    /// Another value of the field.
    fn other(self, bit: u64) -> u32 {
        self.value ^ 1 << (bit % u64::from(self.bits))
    }
}

impl Scene {
    /// One of the families of shadow writes.
    pub fn stage(&mut self, values: &Values) {
        match self.rng.below(9) {
            0 => self.staged(values),
            1 => self.equal(values),
            2 => self.differing(values),
            3 => self.read_between(values),
            4 => self.lock_between(values),
            5 => self.too_wide_between(values),
            6 => self.interleaved(values),
            7 => self.differing_on_equal_wires(values),
            _ => self.open_under_lock(values),
        }
    }

    /// A first write, and no second one for now.
    fn staged(&mut self, values: &Values) {
        let it = self.any_shadowed(values);
        self.write(it.register, it.value);
        self.pause();
    }

    /// Two equal writes, some ticks apart.
    fn equal(&mut self, values: &Values) {
        let it = self.any_shadowed(values);
        self.write(it.register, it.value);
        self.pause();
        self.write(it.register, it.value);
        self.read(it.register);
    }

    /// A second write that differs, and often that value again: it is a first
    /// write then.
    pub(super) fn differing(&mut self, values: &Values) {
        let it = self.any_shadowed(values);
        let other = it.other(self.rng.bits());
        self.write(it.register, it.value);
        self.pause();
        self.write(it.register, other);
        for _ in 0..self.rng.below(3) {
            self.write(it.register, other);
        }
        self.read(it.register);
    }

    /// A differing write in a tick with equal wires: local 2 and local 5 may
    /// occur at once.
    fn differing_on_equal_wires(&mut self, values: &Values) {
        let (it, i) = (self.any_shadowed(values), self.any_active());
        let other = it.other(self.rng.bits());
        self.moving = false;
        self.set(i, (0, 1));
        self.write(it.register, it.value);
        self.write(self.map.local(Field::Cause, 2), 1);
        self.set(i, (1, 1));
        self.write(it.register, other);
        self.set(i, (0, 1));
        self.read(self.map.local(Field::Cause, 5));
        self.moving = true;
    }

    /// A read between two equal writes, and sometimes a third one.
    fn read_between(&mut self, values: &Values) {
        let it = self.any_shadowed(values);
        self.write(it.register, it.value);
        self.read(it.register);
        for _ in 0..1 + self.rng.below(2) {
            self.write(it.register, it.value);
        }
        self.read(it.register);
    }

    /// The lock between two writes, equal or not, and one more.
    fn lock_between(&mut self, values: &Values) {
        let it = self.any_lockable(values);
        let other = it.other(self.rng.bits());
        self.write(it.register, it.value);
        self.write(it.guard, 0);
        let second = self.rng.pick(&[it.value, it.value, other]);
        self.write(it.register, second);
        self.write(it.register, it.value);
        self.read(it.register);
    }

    /// A second write with a bit outside the field, and then the equal one.
    fn too_wide_between(&mut self, values: &Values) {
        let it = loop {
            let it = self.any_shadowed(values);
            // A register of 32 bits has none outside.
            if it.bits < 32 {
                break it;
            }
        };
        self.write(it.register, it.value);
        self.write(it.register, it.value | 1 << it.bits);
        self.write(it.register, it.value);
        self.read(it.register);
    }

    /// Two registers in turn, half of the time neighbours.
    fn interleaved(&mut self, values: &Values) {
        let one = self.any_shadowed(values);
        let mut two = self.any_shadowed(values);
        let next = self.map.register(one.register + 1);
        if self.rng.once_in(2) && next.map_or(false, |it| it.is_shadowed()) {
            (two.register, two.value) = (one.register + 1, two.value & 1);
        }
        for it in [one, two, one, two] {
            self.write(it.register, it.value);
        }
        self.read(one.register);
        self.read(two.register);
    }

    /// A stage that stays open while the lock falls; its value never shows.
    fn open_under_lock(&mut self, values: &Values) {
        let it = self.any_lockable(values);
        self.write(it.register, it.value);
        self.write(it.guard, 0);
        self.pause();
        self.read(it.register);
        self.write(it.register, it.value);
    }

    /// Up to two ticks that mostly leave the stages alone.
    fn pause(&mut self) {
        for _ in 0..self.rng.below(3) {
            self.watch();
        }
    }

    /// A shadowed register of what the trace plays with.
    fn any_shadowed(&mut self, values: &Values) -> Shadowed {
        let (i, k) = (self.any_active(), self.any_class());
        let j = self.rng.pick(&[2, 5, 5]);
        self.shadowed(values, (i, j, k))
    }

    /// One that may be locked for good: seldom of a class, mostly of a source
    /// that the trace does not play with.
    fn any_lockable(&mut self, values: &Values) -> Shadowed {
        let (i, j) = (self.rng.index(self.n), self.rng.index(LOCALS));
        if self.rng.once_in(8) {
            return self.any_shadowed(values);
        }
        let local = self.rng.once_in(4);
        self.source(if local { Err(j) } else { Ok(i) })
    }

    /// A register of this alert, this local alert or this class.
    fn shadowed(&mut self, values: &Values, (i, j, k): (usize, usize, usize)) -> Shadowed {
        match self.rng.below(4 + u64::from(self.map.timer)) {
            0 => self.source(Ok(i)),
            1 => self.source(Err(j)),
            4 => self.ping_timeout(),
            _ => {
                let setting = self.rng.pick(&Setting::SHADOWED);
                Shadowed {
                    register: self.map.class(k, setting),
                    guard: self.map.class(k, Setting::Regwen),
                    bits: setting.bits(),
                    value: self.value_for(setting, values),
                }
            }
        }
    }

    /// The ping timer's timeout.
    fn ping_timeout(&mut self) -> Shadowed {
        Shadowed {
            register: PING_TIMEOUT,
            guard: PING_REGWEN,
            bits: PING_TIMEOUT_BITS,
            value: self.rng.pick(&[0, 1, 2, 5, 65535]),
        }
    }

    /// EN or CLASS of an alert, or else of a local alert.
    fn source(&mut self, index: Result<usize, usize>) -> Shadowed {
        let field = self.rng.pick(&[Field::En, Field::Class]);
        let number = |field| match index {
            Ok(i) => self.map.alert(field, i),
            Err(j) => self.map.local(field, j),
        };
        Shadowed {
            register: number(field),
            guard: number(Field::Regwen),
            bits: field.bits(),
            value: self.rng.below(1 << field.bits()) as u32,
        }
    }
}
