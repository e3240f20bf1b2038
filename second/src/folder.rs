//! A folder for logs in the place for temporary files, removed at the end.

use std::ffi::{OsStr, OsString};
use std::fs;
use std::io;
use std::os::unix::ffi::OsStrExt;
use std::path::{Path, PathBuf};

pub struct Folder(PathBuf);

impl Folder {
    /// A new folder for what is named.
    pub fn new(what: &str) -> io::Result<Folder> {
        let name = format!("second-{what}-{}", std::process::id());
        let folder = Folder(std::env::temp_dir().join(name));
        fs::create_dir(&folder.0)?;
        Ok(folder)
    }

    pub fn path(&self) -> &Path {
        &self.0
    }

    /// The whole name of a file in the folder, by its bytes.
    pub fn name(&self, file: &[u8]) -> OsString {
        let mut name = self.0.as_os_str().to_os_string();
        name.push("/");
        name.push(OsStr::from_bytes(file));
        name
    }

    /// Puts logs into the folder, and gives their names.
    pub fn put(&self, logs: &[impl AsRef<[u8]>]) -> io::Result<Vec<OsString>> {
        let mut names = Vec::new();
        for (place, log) in logs.iter().enumerate() {
            let name = self.name(format!("log {}", place + 1).as_bytes());
            fs::write(&name, log)?;
            names.push(name);
        }
        Ok(names)
    }
}

impl Drop for Folder {
    fn drop(&mut self) {
        let _ = fs::remove_dir_all(&self.0);
    }
}
