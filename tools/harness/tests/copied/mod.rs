//! A copy of the reference with one piece of its text replaced, compiled.

use std::fs;
use std::path::{Path, PathBuf};
use std::process::Command;

/// One slip.
pub struct Slip {
    /// What goes wrong.
    pub name: &'static str,
    /// The file name in the reference.
    pub file: &'static str,
    /// The right text, found exactly once in the file.
    pub right: &'static str,
    /// The text with the slip.
    pub wrong: &'static str,
}

/// The reference's sources, copied for each slip and never changed.
pub const REFERENCE: &str = concat!(env!("CARGO_MANIFEST_DIR"), "/../../reference/src");

/// Copies the sources, `bin` included, with the slip put in.
fn copy(slip: &Slip, from: &Path, to: &Path) {
    fs::create_dir_all(to).unwrap();
    for entry in fs::read_dir(from).unwrap() {
        let entry = entry.unwrap();
        let target = to.join(entry.file_name());
        if entry.file_type().unwrap().is_dir() {
            copy(slip, &entry.path(), &target);
            continue;
        }
        let mut text = fs::read_to_string(entry.path()).unwrap();
        if entry.file_name() == slip.file {
            assert_eq!(text.matches(slip.right).count(), 1, "{}", slip.name);
            text = text.replace(slip.right, slip.wrong);
        }
        fs::write(target, text).unwrap();
    }
}

/// Compiles with the plain compiler: it is quicker than a package each.
fn compile(arguments: &[&str], directory: &Path) {
    let status = Command::new("rustc")
        .args(["--edition", "2021", "--cap-lints", "allow", "-Copt-level=0"])
        .args(arguments)
        .current_dir(directory)
        .status()
        .expect("rustc runs");
    assert!(status.success());
}

/// Compiles a copy with the slip put in, as a library in a folder of this name.
pub fn library(folder: &str, slip: &Slip) -> PathBuf {
    let directory = Path::new(env!("CARGO_TARGET_TMPDIR")).join(folder);
    copy(slip, Path::new(REFERENCE), &directory);
    compile(
        &["--crate-type=rlib", "--crate-name=reference", "lib.rs"],
        &directory,
    );
    directory
}

/// Compiles a program of the copy's folder, by its source.
pub fn program(directory: &Path, source: &str) -> PathBuf {
    let library = "reference=libreference.rlib";
    compile(&["--extern", library, "-o", "program", source], directory);
    directory.join("program")
}
