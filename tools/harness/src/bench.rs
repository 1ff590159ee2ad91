//! The time of a tick, of a boot and of a dump, proved library and reference side by
//! side in one process, and of calm ticks, in one go and one by one; the instructions
//! of a tick; and the time of whole programs that read a trace and print its words. A
//! timing is never a verdict; unequal words are one.

mod accesses;
mod boot;
mod calm;
mod dump;
mod instructions;
mod load;
mod maker;
mod piped;
mod programs;
mod rounds;
mod season;
mod senders;
mod start;
mod tables;
mod timed;

pub use accesses::{readable, writable};
pub use boot::time_boot;
pub use calm::{calms, time_calm};
pub use dump::{dumped_states, time_dump};
pub use instructions::{call_once, Counted, Side, INSTRUCTIONS_TITLE};
pub use load::{load, Load, Made, LOADS};
pub use programs::{time_programs, PROGRAMS_TITLE, TRACES};
pub use rounds::time;
pub use season::Season;
pub use tables::Tables;

use crate::record;
use handler::Wires;

/// The records of a timed batch of the newest edition.
pub const RECORDS: usize = 1_000_000;
/// The same of an older edition.
pub const OLDER_RECORDS: usize = 100_000;
/// The rounds; the best one of each side counts.
pub const ROUNDS: usize = 7;
/// The wires of a quiet tick.
const QUIET: (record::Side, record::Side) = (Wires::REST.pos, Wires::REST.neg);
