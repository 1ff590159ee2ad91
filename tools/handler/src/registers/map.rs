//! The number of a register.
use super::field::Field;
use super::register::Register;
use super::setting::Setting;
use crate::{CLASSES, LOCALS};

/// INTR_STATE, in every edition.
pub const INTR_STATE: u16 = 0;
/// INTR_ENABLE, in every edition.
pub const INTR_ENABLE: u16 = 1;
/// INTR_TEST, write only, in every edition.
pub const INTR_TEST: u16 = 2;
/// The bits of each of the three.
pub const INTR_BITS: u32 = 4;

/// PING_TIMER_REGWEN, in editions with the ping timer.
pub const PING_REGWEN: u16 = 4;
/// PING_TIMEOUT_CYC, there.
pub const PING_TIMEOUT: u16 = 5;
/// PING_TIMER_EN, there.
pub const PING_ENABLE: u16 = 6;
/// The bits of PING_TIMEOUT_CYC; the other two have 1.
pub const PING_TIMEOUT_BITS: u32 = 16;

/// The first local block, and the numbers from each to the next, in every edition.
pub(super) const LOCAL: u16 = 16;
pub(super) const LOCAL_STRIDE: u16 = 8;
/// The numbers from a class's block to the next, in every edition.
pub(super) const CLASS_STRIDE: u16 = 16;

/// An edition of the register map: the numbers in which editions differ.
#[derive(Clone, Copy, Debug, PartialEq, Eq)]
pub struct Map {
    /// The alerts that have registers.
    pub alerts: usize,
    /// The numbers from an alert block to the next, and the number at which the first begins.
    pub stride: u16,
    /// The number at which the block of class A begins.
    pub classes: u16,
    /// Has the ping timer its numbers, 4 to 6?
    pub timer: bool,
}

/// The map: that of ticks, and of the newest records.
pub const MAP: Map = Map {
    alerts: 248,
    stride: 256,
    classes: 1280,
    timer: true,
};

/// That of request (iii), and of its records of 70 bytes.
pub const MAP_248: Map = Map {
    timer: false,
    ..MAP
};

/// That of document 01, and of its records of 24 bytes.
pub const MAP_64: Map = Map {
    alerts: 64,
    stride: 64,
    classes: 320,
    timer: false,
};

impl Map {
    /// A register of local alert j.
    pub const fn local(&self, field: Field, j: usize) -> u16 {
        LOCAL + LOCAL_STRIDE * field as u16 + j as u16
    }

    /// A register of alert i.
    pub const fn alert(&self, field: Field, i: usize) -> u16 {
        self.stride * (1 + field as u16) + i as u16
    }

    /// The number at which the block of class k begins.
    pub const fn block(&self, k: usize) -> u16 {
        self.classes + CLASS_STRIDE * k as u16
    }

    /// A register of class k.
    pub const fn class(&self, k: usize, setting: Setting) -> u16 {
        self.block(k) + setting as u16
    }

    /// The number after the last class's block: from it on none is assigned.
    pub const fn end(&self) -> u16 {
        self.block(CLASSES)
    }

    /// The map's number of the register that this edition numbers so; none where that is unassigned for every N.
    pub fn carry(&self, number: u16) -> Option<u16> {
        MAP.number(self.register(number)?)
    }

    /// The number of a register, where this edition has it.
    pub fn number(&self, register: Register) -> Option<u16> {
        match register {
            Register::IntrState => Some(INTR_STATE),
            Register::IntrEnable => Some(INTR_ENABLE),
            Register::IntrTest => Some(INTR_TEST),
            Register::PingRegwen => self.timer.then_some(PING_REGWEN),
            Register::PingTimeout => self.timer.then_some(PING_TIMEOUT),
            Register::PingEnable => self.timer.then_some(PING_ENABLE),
            Register::Local(field, j) => (j < LOCALS).then(|| self.local(field, j)),
            Register::Alert(field, i) => (i < self.alerts).then(|| self.alert(field, i)),
            Register::Class(k, setting) => (k < CLASSES).then(|| self.class(k, setting)),
        }
    }
}
