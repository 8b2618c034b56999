//! Standard output, where a lost byte is an error, and the messages on standard error.

use crate::standard;
use std::fs::File;
use std::io::{self, BufWriter, Write};
use std::os::fd::AsFd;

/// The system's number for a descriptor that is not open.
pub const NOT_OPEN: i32 = 9;

pub enum Output {
    Open(BufWriter<File>),
    Closed,
}

impl Output {
    /// Takes a descriptor of its own: writes to `io::stdout` succeed where it is closed.
    pub fn open() -> Output {
        match io::stdout().as_fd().try_clone_to_owned() {
            Ok(own) if !standard::output_was_closed() => {
                Output::Open(BufWriter::new(File::from(own)))
            }
            _ => Output::Closed,
        }
    }

    /// Writes a message to standard error, behind what standard output has had so far.
    pub fn say(&mut self, message: &str) -> io::Result<()> {
        self.flush()?;
        complain(message);
        Ok(())
    }
}

/// Writes to standard error what stands nowhere else, so that a lost byte is an error.
pub fn report(text: &str) -> io::Result<()> {
    if standard::error_was_closed() {
        return Err(io::Error::from_raw_os_error(NOT_OPEN));
    }
    // Takes a descriptor of its own: writes to `io::stderr` succeed where it is not for writing.
    File::from(io::stderr().as_fd().try_clone_to_owned()?).write_all(text.as_bytes())
}

/// Writes a message to standard error. Where that takes nothing, the exit status has to do.
pub fn complain(message: &str) {
    let _ = io::stderr().write_all(format!("{message}\n").as_bytes());
}

impl Write for Output {
    fn write(&mut self, bytes: &[u8]) -> io::Result<usize> {
        match self {
            Output::Open(to) => to.write(bytes),
            Output::Closed => Err(io::Error::from_raw_os_error(NOT_OPEN)),
        }
    }

    fn flush(&mut self) -> io::Result<()> {
        match self {
            Output::Open(to) => to.flush(),
            Output::Closed => Ok(()),
        }
    }
}
