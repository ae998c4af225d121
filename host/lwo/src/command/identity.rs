//! Which file a name or an open file stands for.

use std::fs::{File, Metadata};
use std::io;
use std::os::fd::AsFd;
use std::os::unix::fs::MetadataExt;

/// A plain file by its device and inode, which are the same under every name and link.
#[derive(Clone, Copy, Debug, PartialEq, Eq)]
pub struct Identity {
    device: u64,
    inode: u64,
}

impl Identity {
    /// The identity of a plain file. Terminals and pipes have none: nothing is lost where one of
    /// them is both read and written.
    pub fn of(metadata: &Metadata) -> Option<Identity> {
        metadata.is_file().then(|| Identity {
            device: metadata.dev(),
            inode: metadata.ino(),
        })
    }

    /// The identity of the plain file that an open stream stands for, as standard input does in
    /// `lwo canonical - OUT < IN`.
    pub fn of_stream(stream: &impl AsFd) -> io::Result<Option<Identity>> {
        let file = File::from(stream.as_fd().try_clone_to_owned()?);
        Ok(Identity::of(&file.metadata()?))
    }
}
