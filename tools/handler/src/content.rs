//! What a dump shows of a state.
use crate::answer::Answer;
use crate::library;
use crate::registers::{Register, MAP};
use crate::state::CLASSES;

/// No register has this number or one above it.
pub const REGISTERS: usize = MAP.end() as usize;

/// The bytes of the longest dump.
pub const DUMP_MOST: usize = 3332;

/// What a dump shows of a class beside its locks.
#[repr(C)]
#[derive(Clone, Copy, Debug, PartialEq, Eq)]
pub struct ShownClass {
    /// STATE: Idle 0, Timeout 1, Terminal 3, phases 4 to 7
    pub state: u32,
    /// ESC_CNT: 0 in Idle and Terminal, and in no other state
    pub count: u32,
    /// ACCUM_CNT
    pub accum: u32,
}

/// All that a dump shows. The three lists are by register number, 0 at every number that has no such thing, so that a content
/// has one form.
#[repr(C)]
#[derive(Clone, Copy, Debug, PartialEq, Eq)]
pub struct Content {
    /// The alerts that the handler was made for.
    pub n: usize,
    /// The classes, A to D.
    pub classes: [ShownClass; CLASSES],
    /// The open stages: 0 for none, else the staged value plus 1.
    pub stages: [u64; REGISTERS],
    /// Each CAUSE.
    pub causes: [u8; REGISTERS],
    /// 1 for each REGWEN and CLR_REGWEN that is locked.
    pub locked: [u8; REGISTERS],
}

impl Content {
    /// Nothing is shown: what comes with a refusal.
    pub const NOTHING: Content = Content {
        n: 0,
        classes: [ShownClass {
            state: 0,
            count: 0,
            accum: 0,
        }; CLASSES],
        stages: [0; REGISTERS],
        causes: [0; REGISTERS],
        locked: [0; REGISTERS],
    };

    /// Is this CAUSE 1?
    pub fn is_caused(&self, cause: Register) -> bool {
        at(cause).map_or(false, |at| self.causes[at] != 0)
    }

    /// Is this REGWEN or CLR_REGWEN locked?
    pub fn is_locked(&self, lock: Register) -> bool {
        at(lock).map_or(false, |at| self.locked[at] != 0)
    }

    /// The open stages, each with its value, the numbers rising.
    pub fn staged(&self) -> Vec<(Register, u32)> {
        let open = |(number, code): (u16, &u64)| {
            let value = code.checked_sub(1)?;
            Some((MAP.register(number)?, value as u32))
        };
        (0..).zip(&self.stages).filter_map(open).collect()
    }
}

/// The place of a register in the lists.
fn at(register: Register) -> Option<usize> {
    MAP.number(register).map(usize::from)
}

/// What the dump shows that these bytes are, and 0. Any bytes may come in. Else nothing is shown: refusal 17 for a start of a
/// dump that was cut, which some bytes behind it would make whole, and for no bytes; refusal 16 for all others.
pub fn read_dump(bytes: &[u8]) -> (Content, Answer) {
    let given = library::read_dump(bytes);
    (given.content, Answer(given.answer))
}

#[test]
fn a_content_stands_where_the_header_has_it() {
    use crate::layout::offset_of;
    use crate::library::Shown;
    use std::mem::size_of;
    assert!(size_of::<ShownClass>() == 12);
    assert!(offset_of!(ShownClass, count) == 4);
    assert!(offset_of!(ShownClass, accum) == 8);
    assert!(size_of::<Shown>() == 13504);
    assert!(offset_of!(Shown, content) == 8);
    assert!(offset_of!(Content, n) == 0);
    assert!(offset_of!(Content, classes) == 8);
    assert!(offset_of!(Content, stages) == 56);
    assert!(offset_of!(Content, causes) == 10808);
    assert!(offset_of!(Content, locked) == 12152);
    assert!(REGISTERS == 1344);
}
