//! Bytes that are kept until all of them are there: few in memory, more in a file without a name.
use crate::output::nameless;
use std::env::temp_dir;
use std::fs::{self, File};
use std::io::{self, Seek, Write};
use std::path::{Path, PathBuf};

/// The most bytes that are kept in memory.
const FEW: usize = 1 << 20;

pub struct Spool {
    few: Vec<u8>,
    file: Option<File>,
    /// What the file is beside.
    beside: PathBuf,
}

impl Spool {
    /// `to`: the file that the bytes are for. What is no plain file, and standard output, has the temporary folder beside it.
    pub fn new(to: Option<&str>) -> Spool {
        let plain = |to: &&str| fs::metadata(to).map_or(true, |about| about.is_file());
        let beside = match to.filter(plain) {
            Some(to) => PathBuf::from(to),
            None => temp_dir().join("trace"),
        };
        Spool {
            few: Vec::new(),
            file: None,
            beside,
        }
    }

    pub fn add(&mut self, bytes: &[u8]) -> io::Result<()> {
        self.few.extend_from_slice(bytes);
        match self.few.len() > FEW {
            true => self.spill(),
            false => Ok(()),
        }
    }

    fn spill(&mut self) -> io::Result<()> {
        let file = match &mut self.file {
            Some(file) => file,
            none => none.insert(nameless(Path::new(&self.beside))?),
        };
        file.write_all(&self.few)?;
        self.few.clear();
        Ok(())
    }

    /// Writes all of them.
    pub fn copy(mut self, out: &mut dyn Write) -> io::Result<()> {
        if let Some(file) = &mut self.file {
            file.rewind()?;
            io::copy(file, out)?;
        }
        out.write_all(&self.few)
    }
}
