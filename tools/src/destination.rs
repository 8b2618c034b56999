//! Where a command writes the bytes that it makes.

use crate::failure::Failure;
use crate::files;
use crate::identity::{self, Identity};
use crate::output::Output;
use std::ffi::{OsStr, OsString};
use std::io::{self, IsTerminal, Write};
use std::path::Path;

pub enum Destination<'a> {
    Standard,
    /// A file that is written over where it exists; it is kept as it is where that fails.
    File(&'a OsStr),
    /// A file that must not exist.
    New(OsString),
    /// The file that was read; it is kept as it is where that fails.
    InPlace(&'a OsStr),
}

impl<'a> Destination<'a> {
    /// Takes the value of -o: none and "-" are standard output, unless that is a terminal.
    pub fn of(name: Option<&'a OsStr>) -> Result<Destination<'a>, String> {
        match name.filter(|name| *name != "-") {
            Some(name) => Ok(Destination::File(name)),
            None if io::stdout().is_terminal() => {
                Err("standard output is a terminal; -o OUT names a file".to_string())
            }
            None => Ok(Destination::Standard),
        }
    }

    /// Tells whether it is the file that is read, by any of its names, so that it is not written
    /// over.
    pub fn is(&self, source: &OsStr) -> bool {
        identity::is_damaged(identity::read(source), self.found())
    }

    /// Finds what is there before it is written.
    pub fn found(&self) -> Option<Identity> {
        match self.name() {
            Some(name) => identity::named(name),
            None => identity::stream(io::stdout()),
        }
    }

    /// Names the file; none for standard output.
    pub fn name(&self) -> Option<&OsStr> {
        match self {
            Destination::Standard => None,
            Destination::File(name) | Destination::InPlace(name) => Some(name),
            Destination::New(name) => Some(name),
        }
    }

    pub fn write(&self, out: &mut Output, bytes: &[u8]) -> Result<(), Failure> {
        let (name, written) = match self {
            Destination::Standard => return Ok(out.write_all(bytes)?),
            Destination::New(name) => (name.as_ref(), files::create(Path::new(name), bytes)),
            Destination::File(name) | Destination::InPlace(name) => {
                (*name, files::write(Path::new(name), bytes))
            }
        };
        written.map_err(|error| Failure::UnwritableFile(name.to_owned(), error))
    }
}
