//! A file that is replaced as a whole, under a lock.
use crate::failure::Failure;
use crate::file::unread;
use std::ffi::OsString;
use std::fs::{self, File, Metadata, OpenOptions};
use std::io::{Error, ErrorKind, Write};
use std::os::unix::fs::{MetadataExt, OpenOptionsExt, fchown};
use std::path::Path;

/// Keeps other runs of the tool from changing images in a folder, until it is dropped.
pub struct Lock {
    _folder: File,
    /// whether the file system has locks
    is_sole: bool,
}

pub fn lock(folder: &Path) -> Result<Lock, Failure> {
    let lock = File::open(folder).map_err(|error| unread(folder, error))?;
    let is_sole = match lock.lock() {
        Ok(()) => true,
        Err(error) if error.kind() == ErrorKind::Unsupported => false,
        Err(error) => return Err(unread(folder, error)),
    };
    Ok(Lock {
        _folder: lock,
        is_sole,
    })
}

/// Whether a file may be replaced: a regular one that can be written. A rename would replace any other too, and a file without a bit
/// for writing says that it is to stay as it is, even to one who may write everything.
pub fn test_replaceable(path: &Path) -> Result<Metadata, Error> {
    let refused = |says: &str| Err(Error::new(ErrorKind::PermissionDenied, says));
    let found = fs::metadata(path)?;
    if !found.is_file() {
        return refused("not a regular file: only such a file is changed");
    }
    if found.permissions().readonly() {
        return refused("the file is read-only: `chmod u+w` lets it be changed");
    }
    OpenOptions::new().write(true).open(path)?;
    Ok(found)
}

/// Writes a file by a temporary one in the same folder and a rename: a crash leaves the old file or the new one. An old file's mode and
/// owner stay.
pub fn write(path: &Path, bytes: &[u8], lock: &Lock) -> Result<(), Failure> {
    // a link is followed, so that it stays a link
    let path = &fs::canonicalize(path).unwrap_or_else(|_| path.to_owned());
    if lock.is_sole {
        remove_stale(path);
    }
    let temporary = folder(path).join(temporary_name(path, &std::process::id().to_string()));
    let written = || {
        let old = match fs::symlink_metadata(path) {
            Ok(_) => Some(test_replaceable(path)?),
            Err(_) => None,
        };
        // nobody may read more of it meanwhile than of the old one
        let mode = if old.is_some() { 0o600 } else { 0o666 };
        let mut create = OpenOptions::new();
        let create = create.write(true).create_new(true).mode(mode);
        let mut file = create.open(&temporary)?;
        file.write_all(bytes)?;
        if let Some(old) = old {
            keep_owner(&file, &old)?;
            file.set_permissions(old.permissions())?;
        }
        file.sync_all()?;
        fs::rename(&temporary, path)?;
        File::open(folder(path))?.sync_all()
    };
    written().map_err(|error| {
        let _ = fs::remove_file(&temporary);
        unwritten(path, error)
    })
}

/// Gives a new file the old one's owner and group, where they differ. Where that is not allowed, nothing is replaced.
fn keep_owner(file: &File, old: &Metadata) -> Result<(), Error> {
    let new = file.metadata()?;
    if (new.uid(), new.gid()) == (old.uid(), old.gid()) {
        return Ok(());
    }
    fchown(file, Some(old.uid()), Some(old.gid())).map_err(|error| {
        let says = format!("its owner cannot be kept, so it is not changed: {error}");
        Error::new(error.kind(), says)
    })
}

fn temporary_name(path: &Path, process: &str) -> OsString {
    let mut name = OsString::from(".");
    name.push(path.file_name().unwrap_or_default());
    name.push(format!(".{process}.tmp"));
    name
}

/// Removes the temporary files that killed runs left for this file. The lock is held, so none of them is being written.
fn remove_stale(path: &Path) {
    let Ok(entries) = fs::read_dir(folder(path)) else {
        return;
    };
    for entry in entries.flatten() {
        let name = entry.file_name();
        let process: String = (name.to_string_lossy().rsplit('.').nth(1))
            .map(String::from)
            .unwrap_or_default();
        let is_number = !process.is_empty() && process.bytes().all(|byte| byte.is_ascii_digit());
        if is_number && name == temporary_name(path, &process) {
            // what cannot be removed is named when the new one cannot be made
            let _ = fs::remove_file(entry.path());
        }
    }
}

pub fn unwritten(name: &Path, error: Error) -> Failure {
    Failure::Write(format!("{}: {error}", name.display()))
}

pub fn folder(path: &Path) -> &Path {
    match path.parent() {
        Some(folder) if folder != Path::new("") => folder,
        _ => Path::new("."),
    }
}
