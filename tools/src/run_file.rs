//! The head of a run file (01, "The page printer and the console").

use crate::bytes::{halfword, word, words};
use crate::library;

/// Every run file begins so; no sound record does, for it would have too many imports.
pub const BEGINNING: &[u8] = b"TRK\x00\x01";
const NAME: &[u8] = b"TRK";

const MAX_BYTES: usize = 8_192;
/// Memory that a run file may ask for.
const MAX_MEMORY_WORDS: u16 = 4_096;

pub struct RunFile<'a> {
    /// One byte for each procedure.
    pub results: &'a [u8],
    pub parameters: Vec<u32>,
    pub budget: u32,
    pub memory_words: u16,
    pub stack_words: u16,
    pub record: &'a [u8],
}

/// Tells whether a file is meant as a run file, and not as a record.
pub fn is_run_file(file: &[u8]) -> bool {
    file.starts_with(NAME)
}

impl<'a> RunFile<'a> {
    /// Takes a file apart, or names the rule that it breaks (16).
    pub fn split(file: &'a [u8]) -> Result<RunFile<'a>, &'static str> {
        if file.len() > MAX_BYTES {
            return Err("it is longer than 8,192 bytes");
        }
        let Some(rest) = file.strip_prefix(BEGINNING) else {
            return Err(match library::record_number(file) {
                0 => "it is a record alone: it does not begin with TRK and version 1",
                _ => "it does not begin with TRK and version 1",
            });
        };
        let file = split_head(rest).ok_or("it ends inside its head")?;
        if file.memory_words > MAX_MEMORY_WORDS {
            return Err("it asks for more than 4,096 words of memory");
        }
        Ok(file)
    }
}

/// Takes apart what stands behind the version; none where it is too short.
fn split_head(rest: &[u8]) -> Option<RunFile<'_>> {
    let (&count, rest) = rest.split_first()?;
    let (results, rest) = rest.split_at_checked(usize::from(count))?;
    let (&count, rest) = rest.split_first()?;
    let (parameters, rest) = rest.split_at_checked(4 * usize::from(count))?;
    let (sizes, record) = rest.split_at_checked(8)?;
    let (budget, memory_words, stack_words) =
        (word(sizes, 0), halfword(sizes, 4), halfword(sizes, 6));
    let parameters = words(parameters);
    Some(RunFile { results, parameters, budget, memory_words, stack_words, record })
}
