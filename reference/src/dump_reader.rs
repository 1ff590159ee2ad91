//! The reader of a dump (request (xiv)).
//!
//! It takes field by field. A field that is there must hold what the dump of an
//! accepted state can hold there after the fields before it. The first field
//! that is not there as a whole must still be able to become such a value; all
//! fields after it are missing and can become what they must, so the bytes are
//! then the cut start of a dump, and only then.

use crate::answer::Refusal;
use crate::class::{IDLE, PHASE0, PHASE3, TERMINAL, TIMEOUT};
use crate::content::{shadowed, ClassContent, Content, StageContent};
use crate::dump::BEGINNING;
use crate::dump_bits::Reader;
use crate::handler::MAX_ALERTS;

/// Gives what a dump shows, and 0. Any other bytes show nothing: the content is
/// all 0, and the answer -17 for no bytes and for the cut start of a dump, which
/// some more bytes would make whole, else -16.
pub fn read_dump(bytes: &[u8]) -> (Content, i64) {
    match read(bytes) {
        Ok(content) => (content, 0),
        Err(refusal) => (Content::nothing(), refusal.answer()),
    }
}

fn read(bytes: &[u8]) -> Result<Content, Refusal> {
    let mut bits = Reader::new(bytes);
    for byte in BEGINNING {
        let byte = u32::from(byte);
        bits.take(8, |lowest, highest| (lowest..=highest).contains(&byte))?;
    }
    let mut content = Content::nothing();
    content.n = bits.take(8, |lowest, _| lowest <= MAX_ALERTS as u32)? as u8;
    for class in &mut content.classes {
        *class = read_class(&mut bits)?;
    }
    let alerts = usize::from(content.n);
    for local in &mut content.locals {
        local.cause = bits.flag()?;
    }
    for alert in &mut content.alerts[..alerts] {
        alert.cause = bits.flag()?;
    }
    content.timer_locked = bits.flag()?;
    for local in &mut content.locals {
        local.locked = bits.flag()?;
    }
    for alert in &mut content.alerts[..alerts] {
        alert.locked = bits.flag()?;
    }
    for class in &mut content.classes {
        class.locked = bits.flag()?;
        class.clr_locked = bits.flag()?;
    }
    bits.fill()?;
    content.stages = read_stages(&mut bits, content.n)?;
    if bits.left() > 0 {
        // No dump is the start of a longer one.
        return Err(Refusal::BrokenDump);
    }
    Ok(content)
}

/// Takes STATE, count and accumulator of a class. Its locks come later.
fn read_class(bits: &mut Reader) -> Result<ClassContent, Refusal> {
    let state = bits.take(3, |lowest, highest| {
        (lowest..=highest).any(|state| named(state as u8))
    })?;
    let state = state as u8;
    let count = bits.take(32, |lowest, highest| match state {
        IDLE | TERMINAL => lowest == 0,
        _ => highest != 0,
    })?;
    let accumulator = bits.take(16, |_, _| true)?;
    Ok(ClassContent {
        state,
        count,
        accumulator: accumulator as u16,
        locked: false,
        clr_locked: false,
    })
}

/// Whether a number names a state of a class.
fn named(state: u8) -> bool {
    matches!(state, IDLE | TIMEOUT | TERMINAL | PHASE0..=PHASE3)
}

/// Takes the open stages of a handler of `n` alerts.
fn read_stages(bits: &mut Reader, n: u8) -> Result<Vec<StageContent>, Refusal> {
    let registers = shadowed(n);
    let number = bits.take(16, |lowest, _| lowest as usize <= registers.len())? as usize;
    let mut stages = Vec::new();
    // Those below are at or before the last register taken.
    let mut next = 0;
    for at in 0..number {
        // Each of the stages that follow this one needs a register of its own.
        let following = number - at - 1;
        let choice = &registers[next..registers.len() - following];
        let register = bits.take(16, |lowest, highest| {
            choice
                .iter()
                .any(|(number, _)| (lowest..=highest).contains(&u32::from(*number)))
        })?;
        while u32::from(registers[next].0) != register {
            next += 1;
        }
        let mask = registers[next].1.mask();
        next += 1;
        let value = bits.take(32, |lowest, _| lowest <= mask)?;
        stages.push(StageContent {
            register: register as u16,
            value,
        });
    }
    Ok(stages)
}
