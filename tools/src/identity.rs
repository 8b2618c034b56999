//! Which file is behind a name or a stream, to see where two of them are one.

use std::ffi::OsStr;
use std::fs::{self, File, FileType, Metadata};
use std::io;
use std::os::fd::AsFd;
use std::os::unix::fs::{FileTypeExt, MetadataExt};

#[derive(Clone, Copy)]
pub struct Identity {
    /// Its device, and its number there.
    place: (u64, u64),
    kind: FileType,
}

impl Identity {
    fn of(found: Metadata) -> Identity {
        Identity { place: (found.dev(), found.ino()), kind: found.file_type() }
    }
}

/// Finds the file of a name; none where it is not there.
pub fn named(name: &OsStr) -> Option<Identity> {
    fs::metadata(name).ok().map(Identity::of)
}

/// Finds the file that is read: "-" is standard input.
pub fn read(name: &OsStr) -> Option<Identity> {
    if name == "-" {
        stream(io::stdin())
    } else {
        named(name)
    }
}

pub fn stream(stream: impl AsFd) -> Option<Identity> {
    let own = File::from(stream.as_fd().try_clone_to_owned().ok()?);
    own.metadata().ok().map(Identity::of)
}

/// Tells whether what is read is also written, so that it would be damaged.
pub fn is_damaged(read: Option<Identity>, written: Option<Identity>) -> bool {
    common(read, written).is_some_and(|kind| kind.is_file())
}

/// Tells whether two that are written are one, so that their bytes would be mixed. What goes to a
/// device such as /dev/null is gone in any case.
pub fn is_mixed(one: Option<Identity>, other: Option<Identity>) -> bool {
    common(one, other).is_some_and(|kind| !kind.is_char_device())
}

/// Finds what both are, where they are one.
fn common(one: Option<Identity>, other: Option<Identity>) -> Option<FileType> {
    let (one, other) = (one?, other?);
    (one.place == other.place).then_some(one.kind)
}
