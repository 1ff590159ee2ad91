//! Calm calls: many ticks without access on steady wires, by the proved engine
//! in one go, beside that many plain ticks, the library's own and the
//! reference's; and beyond what plain ticks reach, one call beside two.

mod beside;
mod classes;
mod joined;
mod list;
mod met;
mod plain;
mod refused;
mod run;
mod senders;
mod start;
mod subject;
mod summary;
mod way;

pub use crate::calls::FoundMade as Found;
pub use plain::Plain;
pub use run::{try_calms, DEFAULT_CALMS};
pub use start::Start;
pub use subject::{Calm, PROVED};
pub use summary::Summary;
pub use way::{Way, WAYS};
