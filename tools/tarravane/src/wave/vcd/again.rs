//! A trace that is read twice: a file is opened again, any other input is kept in a file without a name.
use crate::output::{nameless, Failure};
use crate::source::{filled, AT_ONCE};
use crate::trace::{self, Start};
use std::fs::File;
use std::io::{BufReader, Read, Seek, Write};
use std::path::Path;

pub enum Again<'a> {
    File(&'a str),
    /// The records of an input that comes once.
    Kept(File),
}

/// A buffer that holds many records of any edition.
const BUFFER: usize = AT_ONCE * 128;

impl<'a> Again<'a> {
    /// Keeps the rest of an input, beside the file that it is for.
    pub fn kept(from: &mut impl Read, name: &str, beside: &Path) -> Result<Again<'a>, Failure> {
        let mut file = nameless(beside)?;
        let mut buffer = vec![0; BUFFER];
        loop {
            let have = filled(from, &mut buffer, name)?;
            file.write_all(&buffer[..have])?;
            if have < BUFFER {
                return Ok(Again::Kept(file));
            }
        }
    }

    /// The records, from the first one on.
    pub fn records(&self, start: Start) -> Result<Box<dyn Read + '_>, Failure> {
        match self {
            Again::File(name) => {
                let (mut from, _) = trace::opened(name)?;
                match Start::read(&mut from, name)? == start {
                    true => Ok(Box::new(from)),
                    false => Err(changed(name)),
                }
            }
            Again::Kept(file) => {
                let mut file: &File = file;
                file.rewind()?;
                Ok(Box::new(BufReader::with_capacity(BUFFER, file)))
            }
        }
    }
}

/// A trace that is not the same the second time.
pub fn changed(name: &str) -> Failure {
    Failure::Source(format!("{name} was changed while it was read"))
}
