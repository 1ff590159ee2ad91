//! What the trace writer gets: lists of accesses and samples, well formed and
//! not, and lent buffers, all with guards around them.

mod buffer;
mod generate;
mod lent;
mod row;
mod spoil;

pub use buffer::Buffer;
pub use lent::{Entries, Lent, LISTS};
pub use row::Row;
pub use spoil::{Way, WAYS};
