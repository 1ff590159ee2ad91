//! Writes that give a register its value.

use handler::registers::Map;

/// The writes of a value: two equal ones where the register is shadowed, one
/// where it is not.
pub fn configure(map: Map, register: u16, value: u32) -> Vec<(u16, u32)> {
    let writes = map.register(register).map_or(1, |it| it.writes());
    vec![(register, value); writes]
}
