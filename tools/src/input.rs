//! Reading a file, or standard input.

use crate::failure::Failure;
use crate::output::NOT_OPEN;
use crate::{record, standard};
use std::ffi::OsStr;
use std::fs::File;
use std::io::{self, Read};

/// Reads a file, or standard input where the name is "-"; at most a byte more than is wanted, which
/// shows that it is too long: it may have no end.
pub fn read(name: &OsStr, most: usize) -> Result<Vec<u8>, Failure> {
    let mut bytes = Vec::new();
    open(name)
        .and_then(|source| source.take(most as u64 + 1).read_to_end(&mut bytes))
        .map_err(|error| Failure::Unreadable(name.to_owned(), error))?;
    Ok(bytes)
}

/// Reads a record or a run file; refuses what is longer than any.
pub fn read_any(name: &OsStr) -> Result<Vec<u8>, Failure> {
    let bytes = read(name, record::MAX_BYTES)?;
    if bytes.len() > record::MAX_BYTES {
        let why = "longer than any record or run file".to_string();
        return Err(Failure::Refused(name.to_owned(), why));
    }
    Ok(bytes)
}

fn open(name: &OsStr) -> io::Result<Box<dyn Read>> {
    if name != "-" {
        return Ok(Box::new(File::open(name)?));
    }
    if standard::input_was_closed() {
        return Err(io::Error::from_raw_os_error(NOT_OPEN));
    }
    Ok(Box::new(io::stdin().lock()))
}
