//! Options and files of a command.

use crate::failure::escaped;
use std::ffi::{OsStr, OsString};
use std::os::unix::ffi::OsStrExt;

/// An option that a command knows.
pub struct Flag {
    pub name: &'static str,
    /// What its value is called in the help, where it takes one.
    pub value: Option<&'static str>,
}

/// How many result words each procedure leaves, which a record does not hold itself.
pub const RESULTS: Flag = Flag { name: "--results", value: Some("DIGITS") };

/// A library that is lent beside the file (02, K1); it may be given more than once.
pub const LIBRARY: Flag = Flag { name: "--library", value: Some("SID=FILE") };

const MAX_PROCEDURES: usize = 256;

pub struct Arguments {
    pub help: bool,
    pub files: Vec<OsString>,
    /// Options in the order given, each with its value (empty where it takes none).
    options: Vec<(&'static str, OsString)>,
}

impl Arguments {
    /// Takes arguments apart: options by themselves or with a value, as `--name VALUE` or
    /// `--name=VALUE`; all else are files, and so is everything after `--`. Answers what cannot be
    /// followed.
    pub fn parse(
        mut arguments: impl Iterator<Item = OsString>,
        flags: &[Flag],
    ) -> Result<Arguments, String> {
        let mut parsed = Arguments { help: false, files: Vec::new(), options: Vec::new() };
        while let Some(argument) = arguments.next() {
            match argument.as_bytes() {
                b"--" => parsed.files.extend(arguments.by_ref()),
                b"--help" | b"-h" => {
                    parsed.help = true;
                    return Ok(parsed);
                }
                [b'-', _, ..] => {
                    let option = read_option(&argument, &mut arguments, flags)?;
                    parsed.options.push(option);
                }
                _ => parsed.files.push(argument),
            }
        }
        Ok(parsed)
    }

    pub fn has(&self, name: &str) -> bool {
        self.value(name).is_some()
    }

    /// Finds the value of an option: of the last one where it is given more than once.
    pub fn value(&self, name: &str) -> Option<&OsStr> {
        let found = self.options.iter().rev().find(|(option, _)| *option == name);
        found.map(|(_, value)| value.as_os_str())
    }

    /// Lists the values of an option that may be given more than once, in the order given.
    pub fn values<'a>(&'a self, name: &'a str) -> impl Iterator<Item = &'a OsStr> {
        let of_name = self.options.iter().filter(move |(option, _)| *option == name);
        of_name.map(|(_, value)| value.as_os_str())
    }

    /// Reads the value of an option as a number of steps.
    pub fn number(&self, name: &str) -> Result<Option<u32>, String> {
        let Some(value) = self.value(name) else { return Ok(None) };
        let number = value.to_str().and_then(|text| text.parse().ok());
        let fault =
            || format!("{name} takes a number from 0 to {}, not '{}'", u32::MAX, escaped(value));
        number.map(Some).ok_or_else(fault)
    }

    /// Reads the value of `RESULTS`: a digit for each procedure.
    pub fn results(&self) -> Result<Option<Vec<u8>>, String> {
        let Some(digits) = self.value(RESULTS.name) else { return Ok(None) };
        let bytes = digits.as_bytes();
        if bytes.len() > MAX_PROCEDURES || !bytes.iter().all(u8::is_ascii_digit) {
            let fault = "is no list of digits, one for each of at most 256 procedures";
            return Err(format!("'{}' {fault}", escaped(digits)));
        }
        Ok(Some(bytes.iter().map(|digit| digit - b'0').collect()))
    }

    pub fn one_file(&self) -> Result<&OsStr, String> {
        match &self.files[..] {
            [file] => Ok(file),
            [] => Err("no file is given".to_string()),
            _ => Err("one file at a time".to_string()),
        }
    }
}

/// Reads an option with its value, which may be the next argument.
fn read_option(
    argument: &OsStr,
    rest: &mut impl Iterator<Item = OsString>,
    flags: &[Flag],
) -> Result<(&'static str, OsString), String> {
    let bytes = argument.as_bytes();
    let end = bytes.iter().position(|&byte| byte == b'=').unwrap_or(bytes.len());
    let (name, behind) = bytes.split_at(end);
    let behind = behind.get(1..).map(|value| OsStr::from_bytes(value).to_owned());
    let Some(flag) = flags.iter().find(|flag| flag.name.as_bytes() == name) else {
        return Err(format!("unknown option '{}'", escaped(argument)));
    };
    match (flag.value, behind) {
        (None, None) => Ok((flag.name, OsString::new())),
        (None, Some(_)) => Err(format!("{} takes no value", flag.name)),
        (Some(_), Some(value)) => Ok((flag.name, value)),
        (Some(called), None) => {
            let missing = || format!("{} needs {called} behind it", flag.name);
            Ok((flag.name, rest.next().ok_or_else(missing)?))
        }
    }
}
