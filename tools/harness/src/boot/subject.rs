//! The installers: the proved one, and the reference's beside it.

use crate::calls::{handler_of, reference_of, with_spare};
use handler::{Answer, Handler, Installed};

/// An installer: a state, and the lifecycle by its number.
pub type Install<'a> = &'a dyn Fn(Handler, u8) -> Installed;

/// The proved installer.
pub const PROVED: Install = &Handler::install_number;

/// The reference's installer.
pub fn reference_install(state: Handler, lifecycle: u8) -> Installed {
    let given = reference::install(reference_of(&state), lifecycle);
    Installed {
        handler: with_spare(handler_of(&given.handler), &state),
        answer: Answer(given.answer),
        register: given.register,
    }
}
