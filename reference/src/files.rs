//! Saved forms in files.

use std::ffi::OsString;
use std::fs::{self, File, Metadata, OpenOptions, Permissions};
use std::io::{self, Read, Write};
use std::os::unix::fs::{fchown, MetadataExt, OpenOptionsExt, PermissionsExt};
use std::path::{Path, PathBuf};
use std::process;

/// A file is read this far; no form is that long.
pub const FILE_MOST: u64 = 4096;

/// What is added to a path for the new file beside it, before a number from that of the process on.
const NEW_FILE: &str = ".ringplan-";

/// The mode of a first file, before the user's own narrowing, and of a new one until it has the old one's.
const FIRST_MODE: u32 = 0o640;
const NEW_MODE: u32 = 0o600;

/// What of a file's mode says who may do what.
const RIGHTS: u32 = 0o777;

/// Reads a regular file; any other is not opened.
pub fn read(path: &Path) -> io::Result<Vec<u8>> {
    regular(&fs::metadata(path)?)?;
    let mut form = Vec::new();
    File::open(path)?.take(FILE_MOST).read_to_end(&mut form)?;
    Ok(form)
}

/// Writes the form to a new file beside the path, which takes its name only when it is whole, and brings the name to the disk.
pub fn write(path: &Path, form: &[u8]) -> io::Result<()> {
    if path.as_os_str().is_empty() {
        return Err(io::ErrorKind::NotFound.into());
    }
    let old = old_file(path)?;
    let folder = File::open(folder_of(path))?;
    folder.sync_all()?;
    let mode = if old.is_some() { NEW_MODE } else { FIRST_MODE };
    let (new_path, new_file) = make_beside(path, mode)?;
    let written = fill(new_file, form, old).and_then(|()| fs::rename(&new_path, path));
    if written.is_err() {
        // The file made here goes; if it cannot, there is nothing more to be done.
        let _ = fs::remove_file(&new_path);
    }
    written?;
    folder.sync_all()
}

fn regular(about: &Metadata) -> io::Result<()> {
    if about.is_file() {
        Ok(())
    } else {
        Err(io::ErrorKind::InvalidInput.into())
    }
}

/// The file that has the name: a regular one that may be written, or none.
fn old_file(path: &Path) -> io::Result<Option<Metadata>> {
    match fs::metadata(path) {
        Err(error) if error.kind() == io::ErrorKind::NotFound => Ok(None),
        Err(error) => Err(error),
        Ok(about) => {
            regular(&about)?;
            OpenOptions::new().read(true).write(true).open(path)?;
            Ok(Some(about))
        }
    }
}

fn folder_of(path: &Path) -> &Path {
    match path.parent() {
        Some(folder) if !folder.as_os_str().is_empty() => folder,
        _ => Path::new("."),
    }
}

/// Makes a new file by the first name that is free.
fn make_beside(path: &Path, mode: u32) -> io::Result<(PathBuf, File)> {
    for number in process::id().. {
        let mut name = OsString::from(path);
        name.push(format!("{NEW_FILE}{number:06}"));
        let new_path = PathBuf::from(name);
        match OpenOptions::new().write(true).create_new(true).mode(mode).open(&new_path) {
            Err(error) if error.kind() == io::ErrorKind::AlreadyExists => continue,
            made => return made.map(|file| (new_path, file)),
        }
    }
    Err(io::ErrorKind::AlreadyExists.into())
}

/// Gives the new file its bytes and the old one's rights, and brings it to the disk.
fn fill(mut file: File, form: &[u8], old: Option<Metadata>) -> io::Result<()> {
    file.write_all(form)?;
    if let Some(old) = old {
        fchown(&file, Some(old.uid()), Some(old.gid()))
            .or_else(|_| fchown(&file, None, Some(old.gid())))?;
        file.set_permissions(Permissions::from_mode(old.mode() & RIGHTS))?;
    }
    file.sync_all()
}
