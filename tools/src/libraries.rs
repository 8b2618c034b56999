//! Libraries that are lent beside a file: the records and results lists of run files (02, K1).

use crate::arguments::{Arguments, LIBRARY};
use crate::failure::{escaped, shown, Failure};
use crate::verdict::split_run_file;
use crate::{input, record};
use std::ffi::{OsStr, OsString};
use std::os::unix::ffi::OsStrExt;

pub struct Library {
    pub sid: u32,
    name: OsString,
    pub record: Vec<u8>,
    pub results: Vec<u8>,
}

/// In the order in which they are lent.
pub struct Libraries(pub Vec<Library>);

impl Libraries {
    /// Reads the libraries that the arguments ask for.
    pub fn read(arguments: &Arguments, usage: &'static str) -> Result<Libraries, Failure> {
        let wrong = |fault| Failure::Usage(fault, usage);
        let asked: Result<Vec<_>, String> = arguments.values(LIBRARY.name).map(split).collect();
        let asked = asked.map_err(wrong)?;
        let names = asked.iter().map(|(_, name)| *name);
        let all = names.chain(arguments.files.iter().map(OsString::as_os_str));
        if all.filter(|name| *name == "-").count() > 1 {
            return Err(wrong("standard input can be read only once".to_string()));
        }
        asked.into_iter().map(|(sid, name)| Library::read(sid, name)).collect()
    }

    pub fn is_empty(&self) -> bool {
        self.0.is_empty()
    }
}

impl FromIterator<Library> for Libraries {
    fn from_iter<I: IntoIterator<Item = Library>>(libraries: I) -> Libraries {
        Libraries(libraries.into_iter().collect())
    }
}

impl Library {
    fn read(sid: u32, name: &OsStr) -> Result<Library, Failure> {
        let bytes = input::read(name, record::MAX_BYTES)?;
        let file = split_run_file(name, &bytes)?;
        let (record, results) = (file.record.to_vec(), file.results.to_vec());
        Ok(Library { sid, name: name.to_owned(), record, results })
    }

    /// Names it for people.
    pub fn shown(&self) -> String {
        format!("library {}, {}", self.sid, self.file())
    }

    /// Names its file.
    pub fn file(&self) -> String {
        shown(&self.name)
    }
}

/// Takes SID=FILE apart.
fn split(value: &OsStr) -> Result<(u32, &OsStr), String> {
    let fault = |why| format!("{} '{}' {why}", LIBRARY.name, escaped(value));
    let bytes = value.as_bytes();
    let Some(equals) = bytes.iter().position(|&byte| byte == b'=') else {
        return Err(fault("is not SID=FILE"));
    };
    let (sid, name) = (&bytes[..equals], OsStr::from_bytes(&bytes[equals + 1..]));
    let no_sid = "has no SID before the =: it is a number from 0 to 4294967295, decimal or hex \
                  with 0x";
    let sid = read_sid(sid).ok_or_else(|| fault(no_sid))?;
    match name.is_empty() {
        true => Err(fault("has no FILE behind the =")),
        false => Ok((sid, name)),
    }
}

/// Reads a number that is decimal, or hex behind 0x.
fn read_sid(text: &[u8]) -> Option<u32> {
    let (digits, base) = match text.strip_prefix(b"0x") {
        Some(digits) => (digits, 16),
        None => (text, 10),
    };
    // A sign would be read too.
    let only_digits = digits.iter().all(u8::is_ascii_hexdigit);
    let digits = std::str::from_utf8(digits).ok().filter(|_| only_digits)?;
    u32::from_str_radix(digits, base).ok()
}
