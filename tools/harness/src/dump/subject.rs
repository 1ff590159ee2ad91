//! The calls under test.

use handler::{read_dump, Answer, Content, Handler};

/// The writer, on a state and the lent buffer.
pub type Writer<'a> = &'a dyn Fn(Handler, &mut [u8]) -> Answer;
/// The reader, on any bytes.
pub type Reader<'a> = &'a dyn Fn(&[u8]) -> (Content, Answer);

/// The calls under test; a test puts wrong ones in.
#[derive(Clone, Copy)]
pub struct Subject<'a> {
    /// The writer.
    pub dump: Writer<'a>,
    /// The reader.
    pub read: Reader<'a>,
}

/// The proved library.
pub const PROVED: Subject = Subject {
    dump: &Handler::dump,
    read: &read_dump,
};
