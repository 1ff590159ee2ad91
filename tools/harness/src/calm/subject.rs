//! The engine under test.

use handler::{Calmed, Change, Handler, Wires};

/// A calm call: a state, the alerts' wires, the ticks and the lent list.
pub type Calm<'a> = &'a dyn Fn(Handler, Wires, u32, &mut [Change]) -> Calmed;

/// The proved engine.
pub const PROVED: Calm = &Handler::calm;
