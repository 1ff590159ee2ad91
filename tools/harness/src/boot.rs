//! Boots: the policy of a lifecycle installed by the proved installer and by
//! the reference's, from the same state.

mod both;
mod obstacle;
mod run;
mod start;
mod subject;
mod summary;
mod way;

pub use run::{try_boots, DEFAULT_BOOTS};
pub use subject::{reference_install, Install, PROVED};
pub use summary::Summary;
pub use way::{Way, WAYS};
