//! A file that has no name of its own yet.

use std::fs::{self, File, OpenOptions};
use std::io::{self, ErrorKind};
use std::os::unix::fs::OpenOptionsExt;
use std::path::{Path, PathBuf};
use std::process;

/// How many names are tried.
const ATTEMPTS: u32 = 100;

/// A new file that is removed again unless it is given its name.
pub struct Temporary {
    pub file: File,
    path: PathBuf,
    renamed: bool,
}

impl Temporary {
    /// The name is one that no file has. It has the process's number, so that it is only taken
    /// where an earlier process of that number was killed at its work. Nobody can read the file
    /// who could not read one of this mode.
    pub fn new(folder: &Path, mode: u32) -> io::Result<Temporary> {
        for attempt in 0..ATTEMPTS {
            let path = folder.join(format!(".lwo-{}-{attempt}.tmp", process::id()));
            let mut options = OpenOptions::new();
            match options
                .write(true)
                .create_new(true)
                .mode(mode & 0o777)
                .open(&path)
            {
                Err(error) if error.kind() == ErrorKind::AlreadyExists => continue,
                Err(error) => return Err(error),
                Ok(file) => {
                    return Ok(Temporary {
                        file,
                        path,
                        renamed: false,
                    })
                }
            }
        }
        Err(ErrorKind::AlreadyExists.into())
    }

    /// Takes a name that another file may have, which loses it.
    pub fn take_name(mut self, path: &Path) -> io::Result<()> {
        fs::rename(&self.path, path)?;
        self.renamed = true;
        Ok(())
    }

    /// Takes a name that no file has; one that has it by now keeps it, and this is an error
    /// (`AlreadyExists`), as a hard link to such a name is. Where the file system has no hard links,
    /// the name is taken by an empty file first.
    pub fn take_new_name(self, path: &Path) -> io::Result<()> {
        match fs::hard_link(&self.path, path) {
            Err(error) if error.kind() != ErrorKind::AlreadyExists => {
                File::create_new(path)?;
                self.take_name(path).inspect_err(|_| {
                    let _ = fs::remove_file(path);
                })
            }
            done => done,
        }
    }
}

impl Drop for Temporary {
    fn drop(&mut self) {
        if !self.renamed {
            // The failure that led here is the one that is told.
            let _ = fs::remove_file(&self.path);
        }
    }
}
