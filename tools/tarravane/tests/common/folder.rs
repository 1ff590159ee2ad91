//! A folder for the files of a test.
use std::fs;
use std::path::{Path, PathBuf};

/// A folder of this test alone, gone after it.
pub struct Folder(PathBuf);

impl Folder {
    pub fn new(test: &str) -> Folder {
        let name = format!("tarravane-{}-{test}", std::process::id());
        let path = std::env::temp_dir().join(name);
        fs::create_dir(&path).expect("a folder");
        Folder(path)
    }

    pub fn path(&self, name: &str) -> String {
        self.0.join(name).to_string_lossy().into_owned()
    }

    /// The names of all that is in it.
    pub fn names(&self) -> Vec<String> {
        let name = |path: &Path| path.file_name().map(|n| n.to_string_lossy().into_owned());
        let entries = fs::read_dir(&self.0).expect("the folder");
        let mut all: Vec<String> = entries
            .filter_map(|entry| name(&entry.expect("an entry").path()))
            .collect();
        all.sort();
        all
    }
}

impl Drop for Folder {
    fn drop(&mut self) {
        let _ = fs::remove_dir_all(&self.0);
    }
}
