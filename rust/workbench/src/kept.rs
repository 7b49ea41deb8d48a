//! Files that are written whole or not at all.

use std::fs::{self, File, Permissions};
use std::io::{self, ErrorKind, Write};
use std::os::unix::fs::OpenOptionsExt;
use std::path::{Path, PathBuf};

/// Puts these bytes into the file. Whatever happens, it has all of them or is as it was before: they are
/// written to another file beside it, which then takes its place.
pub fn keep(path: &Path, bytes: &[u8]) -> io::Result<()> {
    let (path, permissions) = place_of(path)?;
    let beside = beside(&path)?;
    let mut file = create(&beside, permissions.is_some())?;
    let kept = fill(&mut file, bytes, permissions).and_then(|()| fs::rename(&beside, &path));
    if kept.is_err() {
        // The file itself is as it was, and what went wrong is said already.
        _ = fs::remove_file(&beside);
    }
    kept
}

/// Where the file stands, behind any links, and its mode, if it is there already. A device or a folder is not to be
/// replaced by a file.
fn place_of(path: &Path) -> io::Result<(PathBuf, Option<Permissions>)> {
    let about = match fs::metadata(path) {
        Err(error) if error.kind() == ErrorKind::NotFound => return Ok((path.to_path_buf(), None)),
        about => about?,
    };
    match command::other_than_file(&about) {
        Some(what) => Err(io::Error::new(ErrorKind::AlreadyExists, what)),
        None => Ok((fs::canonicalize(path)?, Some(writable(path, about.permissions())?))),
    }
}

/// The mode of a file that may be written. Another file is to take its place, which the system would allow where
/// the folder may be written to, whatever the file's own mode.
fn writable(path: &Path, permissions: Permissions) -> io::Result<Permissions> {
    if permissions.readonly() {
        return Err(io::Error::new(ErrorKind::PermissionDenied, "its mode lets nobody write to it"));
    }
    File::options().append(true).open(path)?;
    Ok(permissions)
}

/// A new file; one that will take the place of another is for nobody else until it has the mode of that.
fn create(path: &Path, replaces: bool) -> io::Result<File> {
    let mode = if replaces { 0o600 } else { 0o666 };
    File::options().write(true).create_new(true).mode(mode).open(path)
}

/// A name in the same folder that no other process uses.
fn beside(path: &Path) -> io::Result<PathBuf> {
    match path.file_name() {
        Some(_) => Ok(path.with_file_name(format!(".workbench-{}", std::process::id()))),
        None => Err(io::Error::new(ErrorKind::InvalidInput, "this is no name of a file")),
    }
}

fn fill(file: &mut File, bytes: &[u8], permissions: Option<Permissions>) -> io::Result<()> {
    file.write_all(bytes)?;
    if let Some(permissions) = permissions {
        file.set_permissions(permissions)?;
    }
    file.sync_all()
}
