//! Damaged states: one tick, what it hears, and one small batch on the proved library and on
//! the reference, from the same state with the same input.

mod both;
mod heard;
mod lists;
mod pool;
mod run;
mod subject;
mod summary;

pub use pool::{Pool, BLOCK};
pub use run::{try_all, DEFAULT_STATES};
pub use subject::{Subject, PROVED};
pub use summary::Summary;
