//! The calls under test.

use crate::calls::{Batch, Hear, Tick};
use handler::Handler;

/// The calls under test; a test puts wrong ones in.
pub struct Subject {
    /// One tick.
    pub tick: Tick,
    /// What that tick hears.
    pub hear: Hear,
    /// A batch.
    pub batch: Batch,
}

/// The proved library.
pub const PROVED: Subject = Subject {
    tick: Handler::tick,
    hear: Handler::hear,
    batch: Handler::batch,
};
