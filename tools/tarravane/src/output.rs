//! Where a result goes: standard output, or a file that is there whole or not at all.
use crate::end::End;
use crate::signals;
use std::fs::{self, File, OpenOptions};
use std::io::{self, stdout, BufWriter, ErrorKind, Write};
use std::os::unix::io::AsFd;
use std::path::{Path, PathBuf};
use std::process;

/// Why a result is not whole.
pub enum Failure {
    Write(io::Error),
    /// What it is made of gave no more; the reason.
    Source(String),
}

impl From<io::Error> for Failure {
    fn from(e: io::Error) -> Failure {
        Failure::Write(e)
    }
}

impl From<String> for Failure {
    fn from(why: String) -> Failure {
        Failure::Source(why)
    }
}

/// What writes a result.
pub trait Fill: FnOnce(&mut dyn Write) -> Result<End, Failure> {}
impl<F: FnOnce(&mut dyn Write) -> Result<End, Failure>> Fill for F {}

/// What was written before a failure goes out too.
fn flushed(to: impl Write, fill: impl Fill) -> Result<End, Failure> {
    let mut out = BufWriter::new(to);
    let filled = fill(&mut out);
    let flushed = out.flush();
    let end = filled?;
    flushed?;
    Ok(end)
}

/// As a file: std's own handle takes a write for done that a descriptor open for reading alone refuses.
fn standard() -> io::Result<File> {
    stdout().as_fd().try_clone_to_owned().map(File::from)
}

/// A new file beside the one that it is to become.
fn part(path: &Path) -> io::Result<(PathBuf, File)> {
    let part = path.with_file_name(format!(".tarravane.{}.part", process::id()));
    let file = OpenOptions::new()
        .write(true)
        .create_new(true)
        .open(&part)?;
    signals::remove_part(&part);
    Ok((part, file))
}

/// A new file in the folder of the one that it is for. Its name is gone at once, so nothing is left of it.
pub fn nameless(beside: &Path) -> io::Result<File> {
    let path = beside.with_file_name(format!(".tarravane.{}.kept", process::id()));
    let mut new = OpenOptions::new();
    let file = new.read(true).write(true).create_new(true).open(&path)?;
    fs::remove_file(&path)?;
    Ok(file)
}

/// Fills a new file, then gives it the name; an older file of that name keeps its permissions.
fn replaced(path: &Path, fill: impl Fill) -> Result<End, Failure> {
    let (part, file) = part(path)?;
    let done = flushed(&file, fill).and_then(|end| {
        if let Ok(old) = fs::metadata(path) {
            file.set_permissions(old.permissions())?;
        }
        fs::rename(&part, path)?;
        Ok(end)
    });
    if done.is_err() {
        // The first failure is the one to tell.
        let _ = fs::remove_file(&part);
    }
    signals::forget_part();
    done
}

/// A device or a pipe takes the bytes as they come; a link stands for what it names.
fn to_file(path: &Path, fill: impl Fill) -> Result<End, Failure> {
    match fs::metadata(path) {
        Ok(about) if about.is_dir() => {
            Err(io::Error::new(ErrorKind::Other, "is a directory").into())
        }
        Ok(about) if about.is_file() => {
            // A file that may not be written is not replaced by a new one either.
            OpenOptions::new().write(true).open(path)?;
            replaced(&fs::canonicalize(path)?, fill)
        }
        Ok(_) => flushed(OpenOptions::new().write(true).open(path)?, fill),
        Err(_) => replaced(path, fill),
    }
}

/// The file that a result goes to must not be the one that it comes from.
pub fn check(from: &str, to: Option<&str>) -> Result<(), String> {
    match (fs::canonicalize(from), to.map(fs::canonicalize)) {
        (Ok(from), Some(Ok(to))) if from == to => {
            Err(format!("-o names the input itself: {}", to.display()))
        }
        _ => Ok(()),
    }
}

/// Writes to the file, or to standard output; it is no fault there where nobody reads on.
pub fn write(
    to: Option<&str>,
    fill: impl FnOnce(&mut dyn Write) -> Result<End, Failure>,
) -> Result<End, String> {
    let done = match to {
        Some(path) => to_file(Path::new(path), fill),
        None => standard()
            .map_err(Failure::Write)
            .and_then(|out| flushed(out, fill)),
    };
    match (done, to) {
        (Ok(end), _) => Ok(end),
        (Err(Failure::Source(why)), _) => Err(why),
        (Err(Failure::Write(e)), Some(path)) => Err(format!("cannot write {path}: {e}")),
        (Err(Failure::Write(e)), None) if e.kind() == ErrorKind::BrokenPipe => Ok(End::Whole),
        (Err(Failure::Write(e)), None) => Err(format!("cannot write: {e}")),
    }
}
