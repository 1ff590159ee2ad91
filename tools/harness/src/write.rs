//! The trace writer: lists through the proved one and the reference's, byte by
//! byte; what was written is read back, and what was read is written again.

mod again;
mod compare;
mod found;
mod read_back;
mod run;
mod subject;
mod summary;

pub use found::Found;
pub use run::{try_lists, DEFAULT_LISTS};
pub use subject::{reference_record, Subject, PROVED};
pub use summary::Summary;
