//! A trace of which the start has been read.
use crate::trace::Start;
use std::path::Path;

pub struct Opened<'a> {
    pub name: &'a str,
    pub start: Start,
    /// How many bytes it has, where it is a file.
    pub bytes: Option<u64>,
}

impl Opened<'_> {
    /// How many whole records it has, where that is known.
    pub fn records(&self) -> Option<u64> {
        self.bytes.map(|bytes| self.start.records(bytes))
    }
}

/// The name of a trace without its folders, so that a result is the same wherever it is made.
pub fn shown_name(name: &str) -> String {
    match name {
        "-" => "standard input".to_string(),
        _ => Path::new(name).file_name().map_or_else(
            || name.to_string(),
            |last| last.to_string_lossy().into_owned(),
        ),
    }
}
