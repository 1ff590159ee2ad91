//! What an installation of the boot policy gives.
use crate::answer::Answer;
use crate::state::Handler;

/// The state that was reached, and how far that is.
#[derive(Clone, Copy, Debug, PartialEq, Eq)]
pub struct Installed {
    /// The state reached.
    pub handler: Handler,
    /// 0 where all is installed; else the refusal, or the value that was read and not written.
    pub answer: Answer,
    /// The register at which it stopped. 0 where all is installed, and on refusals 7 and 13.
    pub register: u16,
}

impl Installed {
    /// Is all of it installed and read back?
    pub fn is_whole(&self) -> bool {
        (self.register, self.answer) == (0, Answer(0))
    }
}
