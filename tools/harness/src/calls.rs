//! Calls of the proved library beside the reference: what they get, the same
//! state on both sides, and what differs.

mod found;
mod input;
mod made;
mod odd;
mod receivers;
mod senders;
mod timer;
mod twin;

pub use found::Found;
pub use input::{access, aimed, answers, receive, record, register, sample, wires, word};
pub use made::FoundMade;
pub use odd::Odd;
pub use receivers::bit;
pub use senders::{handler_senders, reference_pairs, settle};
pub use timer::told_apart;
pub use twin::{
    handler_of, reference_access, reference_edition, reference_of, reference_sample, with_spare,
};

use handler::{Access, Answer, Edition, Handler, Heard, Sample, Ticked, Word};

/// A call of one tick.
pub type Tick = fn(Handler, Access, Sample) -> Ticked;
/// A call that tells what a tick hears.
pub type Hear = fn(Handler, Access, Sample) -> Heard;
/// A call of a batch.
pub type Batch = fn(Handler, Edition, &[u8], &mut [Word]) -> (Handler, Answer);
