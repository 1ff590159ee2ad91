//! The registers by name and by number, for tools that show a trace or make one. The library has its own, proved map and asks
//! nothing here.
//!
//! A register is named as documents 01 and 02 name it: `INTR_STATE`, `LOC_ALERT2_CAUSE`, `ALERT5_EN`, `CLASSA_CTRL`.
//! `papers` has what the public papers call it.
mod decode;
mod field;
mod map;
mod papers;
mod register;
mod setting;

pub use field::Field;
pub use map::{Map, INTR_BITS, INTR_ENABLE, INTR_STATE, INTR_TEST, MAP, MAP_248, MAP_64};
pub use map::{PING_ENABLE, PING_REGWEN, PING_TIMEOUT, PING_TIMEOUT_BITS};
pub use papers::Naming;
pub use register::{Register, LETTERS};
pub use setting::Setting;

#[cfg(test)]
mod tests;
