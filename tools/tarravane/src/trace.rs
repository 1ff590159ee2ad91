//! A trace as bytes: what it begins with, then records.
mod plain;
pub mod record;
mod start;
mod text;

use crate::source::{self, Source};
use handler::Edition;
use std::io::{Chain, Cursor, Read};

pub use start::Start;

/// A trace that is read: the bytes that were looked at, then the others.
pub type Trace = Chain<Cursor<Vec<u8>>, Source>;

/// A trace by its file's name, standard input where that is -, and how many bytes it has where that is known.
pub fn opened(name: &str) -> Result<(Trace, Option<u64>), String> {
    let (mut from, bytes) = source::opened(name)?;
    let mut looked_at = Vec::new();
    if text::begins(&mut from, &mut looked_at, name)? {
        return Err(format!(
            "{name}: this is a text: ./tarravane record makes a trace of it"
        ));
    }
    if let Some(what) = plain::other(&mut from, &mut looked_at, name)? {
        return Err(format!("{name}: {what}"));
    }
    Ok((Cursor::new(looked_at).chain(from), bytes))
}

/// What is said of a trace that replays. Records of 75 bytes are of two editions, so theirs is named.
pub fn title(edition: Edition, alerts: usize) -> String {
    let (bytes, name) = (edition.bytes(), edition.name());
    let named = match name == bytes.to_string() {
        true => String::new(),
        false => format!(", edition {name}"),
    };
    format!("alerts: {alerts}; records of {bytes} bytes{named}")
}

/// What is said of a cut trace: `left` bytes after so many records.
pub fn cut(left: usize, records: u64) -> String {
    let bytes = if left == 1 { "byte" } else { "bytes" };
    format!("{left} {bytes} after tick {records}, too few for a record")
}
