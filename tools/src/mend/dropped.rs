//! What the dropped words of a record were, and why each is dropped.

use crate::bytes::{hex, quoted, word};
use crate::record::Record;

/// The numbers that refuse a malformed version word, and an odd source table or one whose offsets do
/// not rise or are not below the code size.
const VERSION_REFUSED: u32 = 5;
const SOURCE_REFUSED: u32 = 6;

/// Writes a row for each dropped word: its byte place in the record, the number that refuses it, and
/// what it was.
pub fn rows(record: &Record, places: &[usize]) -> Vec<String> {
    let source_at = record.bytes.len() - record.source.len();
    let version_at = source_at - record.version.len();
    let source = Source { record, at: source_at, places };
    let numbered = |at: usize| match at.checked_sub(source_at) {
        Some(behind) => (SOURCE_REFUSED, source.text(behind / 4)),
        None => {
            let text = version_text(&record.bytes[at..at + 4], (at - version_at) / 4);
            (VERSION_REFUSED, text)
        }
    };
    let row = |&at: &usize| {
        let (number, text) = numbered(at);
        format!("{at:6}  {number}  {text}")
    };
    places.iter().map(row).collect()
}

fn version_text(bytes: &[u8], index: usize) -> String {
    let why = if index == 0 { "malformed" } else { "behind a malformed one" };
    format!("version word {index}, {} ({}): {why}", quoted(bytes), hex(bytes))
}

/// A source table of which words are dropped.
struct Source<'a> {
    record: &'a Record<'a>,
    /// Its byte place in the record.
    at: usize,
    places: &'a [usize],
}

impl Source<'_> {
    /// Names a dropped word by its index in the table.
    fn text(&self, index: usize) -> String {
        let (pair, value) = (index / 2, word(self.record.source, 4 * index));
        match index % 2 {
            0 if 4 * (index + 1) == self.record.source.len() => match index {
                0 => format!("the only source word, {value}: of no pair"),
                _ => format!("the last of {} source words, {value}: of no pair", index + 1),
            },
            0 => format!("pair {pair}, offset {value}: {}", self.why(pair, value)),
            _ => format!("pair {pair}, line {value}"),
        }
    }

    /// Says which rule drops a pair of this offset.
    fn why(&self, pair: usize, offset: u32) -> String {
        let size = self.record.code.len();
        let kept = |earlier: &usize| self.places.binary_search(&(self.at + 8 * earlier)).is_err();
        match (0..pair).rev().find(kept) {
            Some(last) if (offset as usize) < size => {
                format!("not above {}, that of pair {last}", word(self.record.source, 8 * last))
            }
            _ => format!("not below {size}, the code size"),
        }
    }
}
