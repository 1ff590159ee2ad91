//! Dumps: states through the proved writer, their dumps and other bytes through
//! the proved reader, beside the reference's.

mod beside;
mod changed;
mod content;
mod made;
mod missed;
mod part;
mod run;
mod subject;
mod summary;
mod twist;

pub use crate::calls::FoundMade as Found;
pub use content::{content_of, state_of};
pub use made::{shadowed, WAYS};
pub use part::{head, Part, PARTS};
pub use run::{try_dumps, DEFAULT_DUMPS};
pub use subject::{Reader, Subject, Writer, PROVED};
pub use summary::Summary;
pub use twist::TWISTS;
