//! Writing a file so that it is there whole or not at all, and never in the place of another
//! without being told to.

use std::fmt;
use std::fs::{self, File, Metadata, OpenOptions};
use std::io::{self, ErrorKind, Write};
use std::os::unix::ffi::OsStrExt;
use std::os::unix::fs::{fchown, MetadataExt};
use std::path::Path;

use super::identity::Identity;
use super::reason::Reason;
use super::system::HeldSignals;
use super::temporary::Temporary;

/// The bytes that are written between two looks whether a signal came.
const PIECE: usize = 1 << 20;

/// The permissions that a new file asks for; the system takes away what the person's mask says.
const NEW_MODE: u32 = 0o666;

/// Why a file was not written. What was there before is unchanged.
#[derive(Debug)]
pub enum NotWritten {
    NoName,
    IsTheInput,
    Folder,
    NoFileName,
    LinkToNothing,
    NotPlain,
    ReadOnly,
    NoPermission,
    Exists,
    Failed(io::Error),
}

impl From<io::Error> for NotWritten {
    fn from(error: io::Error) -> NotWritten {
        NotWritten::Failed(error)
    }
}

impl fmt::Display for NotWritten {
    fn fmt(&self, f: &mut fmt::Formatter<'_>) -> fmt::Result {
        f.write_str("not written: ")?;
        f.write_str(match self {
            NotWritten::NoName => "its name is empty",
            NotWritten::IsTheInput => "it is the file that is read",
            NotWritten::Folder => "it is a folder",
            NotWritten::NoFileName => "its name ends in /, as only that of a folder does",
            NotWritten::LinkToNothing => "it is a link to a file that is not there",
            NotWritten::NotPlain => "it is not a plain file; - is standard output",
            NotWritten::ReadOnly => "it is read-only",
            NotWritten::NoPermission => "there is no permission to write to it",
            NotWritten::Exists => "it is there already; --force writes over it",
            NotWritten::Failed(error) => match error.kind() {
                ErrorKind::NotFound => "there is no such folder",
                ErrorKind::PermissionDenied => "there is no permission to write in its folder",
                _ => return Reason(error).fmt(f),
            },
        })
    }
}

/// Puts a file with these bytes at the path. A plain file that is there is replaced only with
/// `force`, and never where it is one of the inputs. The bytes are first written to a temporary
/// file in the same folder; only when they are on the disk does that file take the name. A signal
/// that ends the command takes the temporary file away.
pub fn write(
    path: &Path,
    bytes: &[u8],
    inputs: &[Identity],
    force: bool,
) -> Result<(), NotWritten> {
    let Some(old) = there(path)? else {
        return put(path, bytes, None);
    };
    refuse(path, &old, inputs, force)?;
    // Where the path is a link, the file that it leads to is replaced and the link stays.
    put(&fs::canonicalize(path)?, bytes, Some(&old))
}

/// What is at the path, at the end of any links; None where nothing is.
fn there(path: &Path) -> Result<Option<Metadata>, NotWritten> {
    let name = path.as_os_str().as_bytes();
    if name.is_empty() {
        return Err(NotWritten::NoName);
    }
    match (fs::symlink_metadata(path), fs::metadata(path)) {
        (_, Ok(metadata)) => Ok(Some(metadata)),
        (Ok(_), Err(error)) if error.kind() == ErrorKind::NotFound => {
            Err(NotWritten::LinkToNothing)
        }
        (Err(error), _) if error.kind() == ErrorKind::NotFound => match name.last() {
            Some(b'/') => Err(NotWritten::NoFileName),
            _ => Ok(None),
        },
        (_, Err(error)) => Err(error.into()),
    }
}

/// What is there and must stay. To give a file another's name needs no permission to write to
/// that other, so the permission is asked for here: also of a person who may write to everything,
/// where nobody else may.
fn refuse(path: &Path, old: &Metadata, inputs: &[Identity], force: bool) -> Result<(), NotWritten> {
    if old.is_dir() {
        return Err(NotWritten::Folder);
    }
    if !old.is_file() {
        return Err(NotWritten::NotPlain);
    }
    if Identity::of(old).is_some_and(|identity| inputs.contains(&identity)) {
        return Err(NotWritten::IsTheInput);
    }
    if old.permissions().readonly() {
        return Err(NotWritten::ReadOnly);
    }
    if !force {
        return Err(NotWritten::Exists);
    }
    match OpenOptions::new().write(true).open(path) {
        Err(error) if error.kind() == ErrorKind::PermissionDenied => Err(NotWritten::NoPermission),
        _ => Ok(()),
    }
}

fn put(path: &Path, bytes: &[u8], old: Option<&Metadata>) -> Result<(), NotWritten> {
    let folder = match path.parent() {
        Some(folder) if folder != Path::new("") => folder,
        _ => Path::new("."),
    };
    // The signals are held for longer than the temporary file is there.
    let held = HeldSignals::new();
    let mut temporary = Temporary::new(folder, old.map_or(NEW_MODE, MetadataExt::mode))?;
    for piece in bytes.chunks(PIECE) {
        stop_if_told(&held)?;
        temporary.file.write_all(piece)?;
    }
    if let Some(old) = old {
        keep_owner(&temporary.file, old);
        temporary.file.set_permissions(old.permissions())?;
    }
    temporary.file.sync_all()?;
    stop_if_told(&held)?;
    match old {
        Some(_) => temporary.take_name(path)?,
        None => temporary.take_new_name(path).map_err(taken)?,
    }
    // The new name is put on the disk too, where the file system can do that for a folder. If it
    // cannot, the file is still whole under this name, the old one or the new one.
    let _ = File::open(folder).and_then(|folder| folder.sync_all());
    Ok(())
}

/// The failure to take a name that another file has by now.
fn taken(error: io::Error) -> NotWritten {
    match error.kind() {
        ErrorKind::AlreadyExists => NotWritten::Exists,
        _ => error.into(),
    }
}

/// An error that nobody reads: the process ends when the signals are let go.
fn stop_if_told(held: &HeldSignals) -> io::Result<()> {
    match held.came() {
        true => Err(ErrorKind::Interrupted.into()),
        false => Ok(()),
    }
}

/// Gives the new file the owner and group of the old one, or the group alone, where the person
/// may do that.
fn keep_owner(file: &File, old: &Metadata) {
    let (owner, group) = (Some(old.uid()), Some(old.gid()));
    let _ = fchown(file, owner, group).or_else(|_| fchown(file, None, group));
}
