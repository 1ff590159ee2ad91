//! What a register number names.
use super::field::Field;
use super::map::{Map, CLASS_STRIDE, LOCAL, LOCAL_STRIDE};
use super::map::{INTR_ENABLE, INTR_STATE, INTR_TEST, PING_ENABLE, PING_REGWEN, PING_TIMEOUT};
use super::register::Register;
use super::setting::Setting;
use crate::{CLASSES, LOCALS};

/// The block of a number and its place there, where blocks begin at `first` and have this stride.
fn place(number: u16, first: u16, stride: u16) -> Option<(usize, usize)> {
    let from = number.checked_sub(first)?;
    Some((usize::from(from / stride), usize::from(from % stride)))
}

fn local(number: u16) -> Option<Register> {
    let (block, j) = place(number, LOCAL, LOCAL_STRIDE)?;
    let field = *Field::ALL.get(block)?;
    (j < LOCALS).then_some(Register::Local(field, j))
}

fn alert(map: &Map, number: u16) -> Option<Register> {
    let (block, i) = place(number, map.stride, map.stride)?;
    let field = *Field::ALL.get(block)?;
    (i < map.alerts).then_some(Register::Alert(field, i))
}

fn class(map: &Map, number: u16) -> Option<Register> {
    let (k, offset) = place(number, map.classes, CLASS_STRIDE)?;
    let setting = *Setting::ALL.get(offset)?;
    (k < CLASSES).then_some(Register::Class(k, setting))
}

impl Map {
    /// The register of a number; none where the number is unassigned for every N.
    pub fn register(&self, number: u16) -> Option<Register> {
        match number {
            INTR_STATE => Some(Register::IntrState),
            INTR_ENABLE => Some(Register::IntrEnable),
            INTR_TEST => Some(Register::IntrTest),
            PING_REGWEN => self.timer.then_some(Register::PingRegwen),
            PING_TIMEOUT => self.timer.then_some(Register::PingTimeout),
            PING_ENABLE => self.timer.then_some(Register::PingEnable),
            _ => local(number)
                .or_else(|| alert(self, number))
                .or_else(|| class(self, number)),
        }
    }
}
