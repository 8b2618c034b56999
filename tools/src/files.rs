//! Writing files so that none is lost or left behind half written.

use std::fs::{self, File, Metadata, OpenOptions};
use std::io::{self, ErrorKind, Write};
use std::os::unix::fs::{fchown, MetadataExt, OpenOptionsExt};
use std::path::Path;
use std::process;

/// Rights of a new file, before the user's mask.
const NEW_MODE: u32 = 0o666;
/// Rights of a temporary file, which may hold what only its owner may read.
const TEMPORARY_MODE: u32 = 0o600;

const NOT_OURS: &str =
    "it belongs to another user or group, and no file of yours can take its place";

/// Writes a file that must not be there yet.
pub fn create(path: &Path, bytes: &[u8]) -> io::Result<()> {
    create_with(path, NEW_MODE, bytes, File::sync_all)
}

/// Writes a file, over one that is there: that has all of the old bytes or all of the new ones,
/// whatever happens. A link stays one, and its target is written. A device, a pipe or an open file
/// takes the bytes as they come.
pub fn write(path: &Path, bytes: &[u8]) -> io::Result<()> {
    match fs::metadata(path) {
        Ok(_) if is_no_place(path) => fs::write(path, bytes),
        Ok(old) => replace(&fs::canonicalize(path)?, &old, bytes),
        Err(error) if error.kind() == ErrorKind::NotFound => match fs::read_link(path) {
            Ok(target) => write(&path.with_file_name(target), bytes),
            Err(_) => create(path, bytes),
        },
        Err(error) => Err(error),
    }
}

/// Tells whether something is there that no new file can take the place of: a folder, a device, a
/// pipe, or an open file.
pub fn is_no_place(path: &Path) -> bool {
    fs::metadata(path).is_ok_and(|found| !found.is_file() || is_open_file(path))
}

/// Tells whether a name means an open file, whatever the file's own name is, as /dev/fd/3 does.
fn is_open_file(path: &Path) -> bool {
    let folder = path.parent().filter(|folder| !folder.as_os_str().is_empty());
    let Ok(folder) = fs::canonicalize(folder.unwrap_or(Path::new("."))) else { return false };
    let link = || fs::read_link(path).is_ok_and(|target| is_open_file(&folder.join(target)));
    folder.starts_with("/proc") || link()
}

/// Puts a new file in the place of a regular one.
fn replace(path: &Path, old: &Metadata, bytes: &[u8]) -> io::Result<()> {
    // Asks for the right to write, for a rename would pass over a file's protection.
    OpenOptions::new().write(true).open(path)?;
    let mut count = 0;
    loop {
        let beside = path.with_file_name(format!(".icode-{}-{count}", process::id()));
        let finish = |file: &File| {
            keep_rights(file, old)?;
            file.sync_all()?;
            fs::rename(&beside, path)
        };
        match create_with(&beside, TEMPORARY_MODE, bytes, finish) {
            // Passes by what a stopped program may have left under this name.
            Err(error) if error.kind() == ErrorKind::AlreadyExists => count += 1,
            done => return done,
        }
    }
}

/// Creates a file, writes and finishes it; removes it where that fails.
fn create_with(
    path: &Path,
    mode: u32,
    bytes: &[u8],
    finish: impl FnOnce(&File) -> io::Result<()>,
) -> io::Result<()> {
    let mut file = OpenOptions::new().write(true).create_new(true).mode(mode).open(path)?;
    let done = file.write_all(bytes).and_then(|()| finish(&file));
    if done.is_err() {
        let _ = fs::remove_file(path);
    }
    done
}

/// Gives a file the owner and the permissions of an old one.
fn keep_rights(file: &File, old: &Metadata) -> io::Result<()> {
    let own = file.metadata()?;
    if (own.uid(), own.gid()) != (old.uid(), old.gid()) {
        fchown(file, Some(old.uid()), Some(old.gid())).map_err(|error| match error.kind() {
            ErrorKind::PermissionDenied => io::Error::other(NOT_OURS),
            _ => error,
        })?;
    }
    file.set_permissions(old.permissions())
}
