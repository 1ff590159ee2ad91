//! The steps that are refused, for each reason and in its order.

use super::profile::Values;
use super::scene::Scene;
use crate::record::{largest, Head, KIND3, NONE, READ, WRITE};
use handler::registers::{Field, Map, Setting, INTR_BITS, INTR_STATE, INTR_TEST};
use handler::{CLASSES, LOCALS};

/// The number after each local block, both ends of the gap up to the alerts,
/// and those of the gap after each block of alerts, where it has one.
fn gaps(map: Map) -> Vec<u16> {
    let mut gaps = Field::ALL.map(|field| map.local(field, LOCALS)).to_vec();
    gaps.push(map.local(Field::Cause, LOCALS) + 1);
    gaps.push(map.alert(Field::Regwen, 0) - 1);
    let stride = usize::from(map.stride);
    if map.alerts < stride {
        for field in Field::ALL {
            gaps.extend([map.alerts, stride - 1].map(|i| map.alert(field, i)));
        }
    }
    gaps
}

/// Both ends of the numbers after the last class, and two in their midst.
fn after(map: Map, largest: u16) -> [u16; 4] {
    [map.end(), largest - 512, largest - 511, largest]
}

impl Scene {
    /// An access that is refused with 1 to 4 or 12.
    pub fn refused(&mut self, values: &Values) {
        let map = self.map;
        let k = self.rng.index(CLASSES);
        let value = self.rng.pick(&[0, 1, 2, u32::MAX]);
        match self.rng.below(7) {
            0 => {
                let register = self.unassigned();
                self.read(register);
            }
            1 => {
                let register = self.unassigned();
                self.write(register, value);
            }
            2 => {
                let register = self.rng.pick(&[INTR_TEST, map.class(k, Setting::Clr)]);
                self.read(register);
            }
            3 => {
                let read_only = [Setting::AccumCnt, Setting::EscCnt, Setting::State];
                let register = map.class(k, self.rng.pick(&read_only));
                self.write(register, value);
            }
            4 => self.too_wide(),
            5 => self.differing(values),
            _ => self.locked(),
        }
    }

    /// A number that names no register.
    fn unassigned(&mut self) -> u16 {
        let (map, largest) = (self.map, largest(self.edition));
        let field = self.rng.pick(&Field::ALL);
        let k = self.rng.index(CLASSES);
        let absent = map.alerts - self.n;
        match self.rng.below(6) {
            0 => {
                let low = self.between(INTR_TEST + 1, map.local(Field::Regwen, 0));
                // Where it has the ping timer, three of them are assigned.
                map.register(low).map_or(low, |_| INTR_TEST + 1)
            }
            1 => self.rng.pick(&gaps(map)),
            2 => self.between(map.class(k, Setting::State) + 1, map.block(k + 1)),
            3 => self.rng.pick(&after(map, largest)),
            // The first alert that is not there; where all are, another number.
            4 if absent > 0 => map.alert(field, self.n),
            5 if absent > 0 => map.alert(field, self.n + self.rng.index(absent)),
            _ => self.between(map.end(), largest + 1),
        }
    }

    /// A number from the first one on, below the end.
    fn between(&mut self, first: u16, end: u16) -> u16 {
        first + self.rng.below(u64::from(end - first)) as u16
    }

    /// A write with a bit outside the field, often the lowest such bit.
    fn too_wide(&mut self) {
        let map = self.map;
        if map.timer && self.rng.once_in(5) {
            return self.too_wide_for_the_timer();
        }
        let field = self.rng.pick(&Field::ALL);
        // The others are read only, or have no bit outside.
        let setting = self.rng.pick(&[
            Setting::Regwen,
            Setting::Ctrl,
            Setting::ClrRegwen,
            Setting::Clr,
            Setting::AccumThresh,
        ]);
        let (i, j, k) = (self.any_active(), self.rng.index(LOCALS), self.any_class());
        let (register, bits) = match self.rng.below(4) {
            0 => (self.between(INTR_STATE, INTR_TEST + 1), INTR_BITS),
            1 => (map.local(field, j), field.bits()),
            2 => (map.alert(field, i), field.bits()),
            _ => (map.class(k, setting), setting.bits()),
        };
        let low = self.rng.bits() as u32 & ((1 << bits) - 1);
        let value = self
            .rng
            .pick(&[1 << bits, (1 << bits) | low, 1 << 31, u32::MAX]);
        self.write(register, value);
    }

    /// Locks an alert or local alert and then writes what is locked.
    fn locked(&mut self) {
        let map = self.map;
        let field = self.rng.pick(&[Field::En, Field::Class, Field::Regwen]);
        let (i, j) = (self.rng.index(self.n), self.rng.index(LOCALS));
        // 2 is wider than EN and REGWEN: refusal 4 comes before 3.
        let value = self.rng.pick(&[0, 1, 1, 2]);
        if self.rng.once_in(2) {
            self.write(map.local(Field::Regwen, j), 0);
            self.write(map.local(field, j), value);
        } else {
            self.write(map.alert(Field::Regwen, i), 0);
            self.write(map.alert(field, i), value);
        }
    }

    /// A malformed record; some would clear or read if they were not.
    pub fn malformed(&mut self) {
        let (k, map) = (self.any_class(), self.map);
        let zeros = self.edition.zero_bits().into();
        let mut head = Head::new(WRITE, map.class(k, Setting::Clr), 1);
        match self.rng.below(6) {
            0 => head.kind = KIND3,
            1 => head.rest = 1 << self.rng.below(zeros),
            2 => {
                (head.kind, head.register, head.value) = (READ, map.class(k, Setting::State), 0);
                head.rest = 1 << self.rng.below(zeros);
            }
            3 => {
                (head.kind, head.register) = (READ, map.class(k, Setting::State));
                head.value = 1 << self.rng.below(32);
            }
            4 => {
                (head.kind, head.register, head.value) = (NONE, 0, 1 << self.rng.below(32));
            }
            _ => {
                (head.kind, head.value) = (NONE, 0);
                head.register = 1 << self.rng.below(self.edition.register_bits().into());
            }
        }
        self.tick(head);
    }
}
