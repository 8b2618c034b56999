//! Numbers in byte strings, highest byte first, and how lists of them are shown.

use std::fmt::Display;

pub fn halfword(bytes: &[u8], at: usize) -> u16 {
    u16::from_be_bytes([bytes[at], bytes[at + 1]])
}

pub fn word(bytes: &[u8], at: usize) -> u32 {
    u32::from_be_bytes([bytes[at], bytes[at + 1], bytes[at + 2], bytes[at + 3]])
}

/// Reads every word of a byte string.
pub fn words(bytes: &[u8]) -> Vec<u32> {
    bytes.chunks_exact(4).map(|four| word(four, 0)).collect()
}

/// Writes words one after the other.
pub fn word_bytes(words: impl IntoIterator<Item = u32>) -> Vec<u8> {
    words.into_iter().flat_map(u32::to_be_bytes).collect()
}

pub fn hex(bytes: &[u8]) -> String {
    let pairs: Vec<String> = bytes.iter().map(|byte| format!("{byte:02x}")).collect();
    pairs.join(" ")
}

/// Writes bytes as text in quotes, with a point for each that is no letter, digit or sign.
pub fn quoted(bytes: &[u8]) -> String {
    let shown = |&byte: &u8| if matches!(byte, b' '..=b'~') { char::from(byte) } else { '.' };
    format!("\"{}\"", bytes.iter().map(shown).collect::<String>())
}

/// Writes numbers with a space before each.
pub fn spaced(numbers: impl IntoIterator<Item = impl Display>) -> String {
    numbers.into_iter().map(|number| format!(" {number}")).collect()
}

/// Writes a number with the noun for one or for several.
pub fn counted(number: usize, one: &str, several: &str) -> String {
    format!("{number} {}", if number == 1 { one } else { several })
}

/// How words are shown; their numbers are unsigned unless something else is asked for.
#[derive(Clone, Copy, PartialEq, Eq)]
pub enum WordForm {
    Unsigned,
    Signed,
    /// Both numbers where they differ.
    Both,
}

impl WordForm {
    pub fn text(self, word: u32) -> String {
        let signed = word as i32;
        match self {
            WordForm::Signed => signed.to_string(),
            WordForm::Both if signed < 0 => format!("{word}/{signed}"),
            _ => word.to_string(),
        }
    }
}
