//! A call beside the reference's, and the first thing that differs.

use super::content::{content_odd, content_of, state_of};
use super::subject::Subject;
use crate::calls::{reference_of, Odd};
use crate::entries::Buffer;
use handler::{Content, Handler, DUMP_MOST};

/// What the reference says of bytes.
#[derive(Clone, Copy, Debug, PartialEq, Eq)]
pub enum Verdict {
    /// They are a dump.
    Whole,
    /// 17.
    Cut,
    /// 16.
    None,
}

/// The verdicts by name, in the same order.
pub const VERDICTS: [&str; 3] = ["whole", "17", "16"];

/// A state through both writers, to the same buffer; the right answer.
pub fn dump_odd(subject: &Subject, state: &Handler, buffer: &Buffer) -> (i64, Option<Odd>) {
    let (mut wanted, mut got) = (buffer.clone(), buffer.clone());
    let right = reference::dump(&reference_of(state), wanted.lent());
    let given = (subject.dump)(*state, got.lent()).0;
    let odd = Odd::first("dump", &[("answer", right, given)]).or_else(|| {
        let (at, wanted, got) = wanted.differs(&got)?;
        let field = format!("byte {at} of the buffer");
        let show = |byte: u8| format!("{byte:02x}");
        Some(Odd::new("dump", field, show(wanted), show(got)))
    });
    (right, odd)
}

/// Bytes through both readers.
pub fn read_odd(subject: &Subject, bytes: &[u8]) -> (Verdict, Option<Odd>) {
    let (shown, right) = reference::read_dump(bytes);
    let (content, given) = (subject.read)(bytes);
    let verdict = match right {
        0 => Verdict::Whole,
        -17 => Verdict::Cut,
        _ => Verdict::None,
    };
    let odd = Odd::first("read", &[("answer", right, given.0)])
        .or_else(|| content_odd(&content_of(&shown), &content));
    (verdict, odd)
}

/// A dump read back: what the reference shows of the state.
pub fn back_odd(subject: &Subject, state: &Handler, dump: &[u8]) -> Option<Odd> {
    let (content, answer) = (subject.read)(dump);
    let wanted = content_of(&reference::Content::of(&reference_of(state)));
    Odd::first("read", &[("answer", 0, answer.0)]).or_else(|| content_odd(&wanted, &content))
}

/// Bytes that the reader takes are the dump of a state that holds what it
/// shows.
pub fn again_odd(subject: &Subject, bytes: &[u8]) -> Option<Odd> {
    let (content, answer): (Content, _) = (subject.read)(bytes);
    if answer.0 != 0 {
        return None;
    }
    let mut out = [0; DUMP_MOST];
    let length = (subject.dump)(state_of(&content), &mut out).0;
    Odd::first("dump again", &[("answer", bytes.len() as i64, length)]).or_else(|| {
        let at = (0..bytes.len()).find(|at| bytes[*at] != out[*at])?;
        let field = format!("byte {at}");
        Some(Odd::new("dump again", field, bytes[at], out[at]))
    })
}
