//! A folder for what a server writes, gone with the test.

use std::path::{Path, PathBuf};

pub struct Folder(PathBuf);

impl Folder {
    /// A path that nothing is at yet.
    pub fn new(name: &str) -> Folder {
        let folder = format!("imap-{name}-{}", std::process::id());
        Folder(std::env::temp_dir().join(folder))
    }

    pub fn path(&self) -> &Path {
        &self.0
    }

    pub fn text(&self) -> &str {
        self.0.to_str().expect("a path in UTF-8")
    }
}

impl Drop for Folder {
    fn drop(&mut self) {
        let _ = match self.0.is_dir() {
            true => std::fs::remove_dir_all(&self.0),
            false => std::fs::remove_file(&self.0),
        };
    }
}
