//! The files that are meant where folders are given.

use std::fs::{self, FileType};
use std::io;
use std::os::unix::ffi::OsStrExt;
use std::path::{Path, PathBuf};

use super::input::{NotRead, Source};

/// A file that is to be read, or the reason why it or a folder cannot be.
pub struct Found {
    pub source: Source,
    pub problem: Option<NotRead>,
}

impl From<Source> for Found {
    fn from(source: Source) -> Found {
        let problem = None;
        Found { source, problem }
    }
}

/// Every file as given, and in the place of a folder all object files in it.
pub fn with_folders(sources: Vec<Source>) -> Vec<Found> {
    let mut found = Vec::new();
    for source in sources {
        match source {
            Source::File(path) if path.is_dir() => walk_whole(path, &mut found),
            _ => found.push(source.into()),
        }
    }
    found
}

/// Every file as given; a folder is told when it is to be read.
pub fn without_folders(sources: Vec<Source>) -> Vec<Found> {
    sources.into_iter().map(Found::from).collect()
}

/// A folder without any object file is told, so that nobody takes silence for a check.
fn walk_whole(folder: PathBuf, found: &mut Vec<Found>) {
    let before = found.len();
    walk(&folder, found);
    if found.len() == before {
        found.push(Found {
            source: Source::File(folder),
            problem: Some(NotRead::NoObjects),
        });
    }
}

/// The object files of a folder and the folders in it, in the order of their names. Links to
/// folders are not followed, for they may lead in a circle.
fn walk(folder: &Path, found: &mut Vec<Found>) {
    let entries = match entries(folder) {
        Ok(entries) => entries,
        Err(error) => {
            found.push(Found {
                source: Source::File(folder.to_owned()),
                problem: Some(error.into()),
            });
            return;
        }
    };
    for (path, file_type) in entries {
        if file_type.is_dir() {
            walk(&path, found);
        } else if is_object(&path) && !(file_type.is_symlink() && path.is_dir()) {
            found.push(Source::File(path).into());
        }
    }
}

/// What is in a folder but for hidden things, whose names begin with a dot.
fn entries(folder: &Path) -> io::Result<Vec<(PathBuf, FileType)>> {
    let mut list = Vec::new();
    for entry in fs::read_dir(folder)? {
        let entry = entry?;
        if !entry.file_name().as_bytes().starts_with(b".") {
            list.push((entry.path(), entry.file_type()?));
        }
    }
    list.sort_by(|(one, _), (other, _)| one.cmp(other));
    Ok(list)
}

fn is_object(path: &Path) -> bool {
    let extension = path.extension();
    extension.is_some_and(|extension| extension.eq_ignore_ascii_case("lwo"))
}
