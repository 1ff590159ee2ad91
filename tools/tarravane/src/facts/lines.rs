//! Which class drives which line. That a line is on, the word says.
use super::starts::PHASE_0;
use handler::Class;

/// Does the class drive line e? Its enable is set, and the class is in the phase that its map names.
pub fn drives(class: &Class, e: usize) -> bool {
    let enabled = class.ctrl >> (2 + e) & 1 == 1;
    let phase = u32::from(class.ctrl >> (6 + 2 * e) & 3);
    enabled && class.state == PHASE_0 + phase
}
