//! What keeps a command from doing its work, in words and as an exit status.

use std::ffi::{OsStr, OsString};
use std::io;

/// Begins every message that is not about a line of an assembler text.
pub const PROGRAM: &str = "icode";

/// How a command ended; the worst one of all files is the program's exit status.
#[derive(Clone, Copy, PartialEq, Eq, PartialOrd, Ord)]
pub enum Status {
    Done = 0,
    /// Refused, trapped or spent.
    NotDone = 1,
    /// Errors of usage, reading or writing.
    Trouble = 2,
}

impl Status {
    pub fn of(done: bool) -> Status {
        if done {
            Status::Done
        } else {
            Status::NotDone
        }
    }
}

pub enum Failure {
    /// The arguments cannot be followed; then the command's usage.
    Usage(String, &'static str),
    Unreadable(OsString, io::Error),
    /// Of standard output.
    Unwritable(io::Error),
    /// Of standard error, where it is to have what stands nowhere else.
    Unsaid(io::Error),
    UnwritableFile(OsString, io::Error),
    /// A file that is refused, with the reason.
    Refused(OsString, String),
    /// An assembler text with faults, each with its file and line.
    Text(Vec<String>),
    /// The library refuses with a number what it made itself.
    Library(u32),
}

/// Reading has its own failures, so that what is left are errors of standard output.
impl From<io::Error> for Failure {
    fn from(error: io::Error) -> Failure {
        Failure::Unwritable(error)
    }
}

impl Failure {
    pub fn status(&self) -> Status {
        match self {
            Failure::Refused(..) | Failure::Text(_) => Status::NotDone,
            _ => Status::Trouble,
        }
    }

    pub fn message(&self) -> String {
        match self {
            Failure::Usage(fault, usage) => format!("{PROGRAM}: {fault}\nusage: {usage}"),
            Failure::Unreadable(name, error) => {
                format!("{PROGRAM}: cannot read '{}': {}", shown(name), reason(error))
            }
            Failure::Unwritable(error) => {
                format!("{PROGRAM}: cannot write to standard output: {}", reason(error))
            }
            Failure::Unsaid(error) => {
                format!("{PROGRAM}: cannot write to standard error: {}", reason(error))
            }
            Failure::UnwritableFile(name, error) => {
                format!("{PROGRAM}: cannot write '{}': {}", shown(name), reason(error))
            }
            Failure::Refused(name, why) => about(name, why),
            Failure::Text(faults) => faults.join("\n"),
            Failure::Library(number) => {
                format!("{PROGRAM}: the library refuses what it made itself with {number}")
            }
        }
    }
}

/// Begins a message with the file that it is about.
pub fn about(name: &OsStr, message: &str) -> String {
    format!("{PROGRAM}: {}: {message}", shown(name))
}

/// Names a file for people.
pub fn shown(name: &OsStr) -> String {
    if name == "-" {
        "standard input".to_string()
    } else {
        escaped(name)
    }
}

/// Escapes control bytes and bytes that are no text, so that a name cannot look like a line of
/// ours.
pub fn escaped(name: &OsStr) -> String {
    let quoted = format!("{name:?}");
    quoted[1..quoted.len() - 1].to_string()
}

/// Takes the system's words alone, without the number that Rust puts behind them.
fn reason(error: &io::Error) -> String {
    let text = error.to_string();
    match text.split_once(" (os error ") {
        Some((words, _)) => words.to_string(),
        None => text,
    }
}
