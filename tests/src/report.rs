//! The run file and the page that is printed for it (01, "The page printer and the console").

use crate::bytes::{halfword, word, words};
use crate::check::{check, STRIDE};
use crate::machine::{load, run};
use crate::record::{Record, HEADER_WORDS, LARGEST};

pub const LARGEST_RUN_FILE: usize = 8_192;
/// Largest memory that a run file may ask for, in words.
pub const LARGEST_FILE_MEMORY: usize = 4_096;

pub struct RunFile<'a> {
    pub results: &'a [u8],
    pub parameters: Vec<u32>,
    pub budget: u32,
    pub memory_words: usize,
    pub stack_words: usize,
    pub record: &'a [u8],
}

impl<'a> RunFile<'a> {
    /// The file taken apart; none where it is malformed or too long (16).
    pub fn read(file: &'a [u8]) -> Option<RunFile<'a>> {
        if file.len() > LARGEST_RUN_FILE {
            return None;
        }
        let rest = file.strip_prefix(b"TRK\x00\x01")?;
        let (&count, rest) = rest.split_first()?;
        let (results, rest) = rest.split_at_checked(count as usize)?;
        let (&count, rest) = rest.split_first()?;
        let (parameters, rest) = rest.split_at_checked(4 * count as usize)?;
        let (numbers, record) = rest.split_at_checked(8)?;
        let memory_words = halfword(numbers, 4) as usize;
        if memory_words > LARGEST_FILE_MEMORY {
            return None;
        }
        Some(RunFile {
            results,
            parameters: words(parameters).collect(),
            budget: word(numbers, 0),
            memory_words,
            stack_words: halfword(numbers, 6) as usize,
            record,
        })
    }
}

/// The text that is printed for a run file: check, load and run, or the refusal.
pub fn text(file: &[u8]) -> String {
    let number = match RunFile::read(file) {
        None => 16,
        Some(file) => match run_file(&file) {
            Ok(text) => return text,
            Err(number) => number,
        },
    };
    format!("check {number}\n")
}

fn run_file(file: &RunFile) -> Result<String, u32> {
    let mut workspace = vec![0; STRIDE * LARGEST[1] as usize];
    match check(file.record, file.results, &mut workspace) {
        0 => {}
        number => return Err(number),
    }
    let mut memory = vec![0; file.memory_words];
    let mut stack = vec![0; file.stack_words];
    let mut registers = load(file.record, &file.parameters, &mut memory, &stack)?;
    let outcome = run(file.record, file.budget, &mut memory, &mut stack, &mut registers)?;
    let record = Record::read(file.record)?;
    Ok(format!(
        "check 0\nend {} at {} line {} steps {}\n{}{}",
        outcome.end,
        outcome.at,
        record.span(outcome.at).line(),
        outcome.steps,
        list("s", &stack[..registers.height as usize]),
        list("g", &memory[HEADER_WORDS as usize..][..record.globals as usize]),
    ))
}

fn list(letter: &str, words: &[u32]) -> String {
    let words: String = words.iter().map(|word| format!(" {word}")).collect();
    format!("{letter}{words}\n")
}

/// Writes the text into a buffer: bytes written, or 0 where it is too short and stays untouched.
pub fn report(file: &[u8], out: &mut [u8]) -> usize {
    let text = text(file);
    match out.get_mut(..text.len()) {
        Some(part) => {
            part.copy_from_slice(text.as_bytes());
            text.len()
        }
        None => 0,
    }
}
