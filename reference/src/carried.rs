//! The register numbers of older editions, carried over to today's map.

/// Stands for a number that the first map left unassigned. Today's map leaves
/// it unassigned too, so an access to it is refused with 1.
pub const UNASSIGNED: u16 = 2047;

/// Today's number of the register that had this number in the first map. A
/// number that was unassigned then stays so, also where it means something
/// now. An alert's number is carried even if the handler has no such alert;
/// it is then refused under the new number as it was under the old.
pub fn carried(number: u16) -> u16 {
    match number {
        // Interrupts and local alerts stay where they were.
        0..=2 | 16..=22 | 24..=30 | 32..=38 | 40..=46 => number,
        64..=127 => 256 + (number - 64),
        128..=191 => 512 + (number - 128),
        192..=255 => 768 + (number - 192),
        256..=319 => 1024 + (number - 256),
        // A class has 13 registers; the last three of its 16 numbers are none.
        320..=383 if number % 16 <= 12 => 1280 + (number - 320),
        _ => UNASSIGNED,
    }
}

/// Today's number of the register that had this number in a record of the
/// second edition: the same, but the ping timer has no numbers there.
pub fn without_timer(number: u16) -> u16 {
    match number {
        4..=6 => UNASSIGNED,
        _ => number,
    }
}
