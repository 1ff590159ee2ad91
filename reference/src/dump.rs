//! The dump after a theft (request (xiv)): its form, and its writer.
//!
//! The four bytes TDMP, then, most significant bit first: N (8 bits); STATE,
//! count and accumulator of each class (3, 32, 16); the causes of the local
//! alerts and of the alerts; the locks of the ping timer, the local alerts, the
//! alerts and, REGWEN before CLR_REGWEN, the classes (a bit each, 1 for locked);
//! zeros to a full byte; the number of open stages (16); register and value of
//! each (16, 32), numbers rising.

use crate::answer::Refusal;
use crate::content::Content;
use crate::dump_bits::Writer;
use crate::handler::Handler;

/// The bytes that every dump begins with.
pub const BEGINNING: [u8; 4] = *b"TDMP";

/// Writes the dump of a state to the front of `out` and answers the bytes
/// written; later bytes stay as they were. Answers -7, then -11 where `out` is
/// shorter than the dump; either leaves every byte of `out` as it was.
pub fn dump(handler: &Handler, out: &mut [u8]) -> i64 {
    if !handler.valid() {
        return Refusal::BrokenState.answer();
    }
    let bytes = bytes(&Content::of(handler));
    if out.len() < bytes.len() {
        return Refusal::ShortBuffer.answer();
    }
    out[..bytes.len()].copy_from_slice(&bytes);
    bytes.len() as i64
}

/// The dump that shows this content.
fn bytes(content: &Content) -> Vec<u8> {
    let mut bits = Writer::new();
    for byte in BEGINNING {
        bits.put(8, byte.into());
    }
    bits.put(8, content.n.into());
    for class in &content.classes {
        bits.put(3, class.state.into());
        bits.put(32, class.count);
        bits.put(16, class.accumulator.into());
    }
    let alerts = &content.alerts[..usize::from(content.n)];
    for source in content.locals.iter().chain(alerts) {
        bits.put(1, source.cause.into());
    }
    bits.put(1, content.timer_locked.into());
    for source in content.locals.iter().chain(alerts) {
        bits.put(1, source.locked.into());
    }
    for class in &content.classes {
        bits.put(1, class.locked.into());
        bits.put(1, class.clr_locked.into());
    }
    bits.fill();
    bits.put(16, content.stages.len() as u32);
    for stage in &content.stages {
        bits.put(16, stage.register.into());
        bits.put(32, stage.value);
    }
    bits.into_bytes()
}
