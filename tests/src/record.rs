//! The I-Code record (manual 5.1; 01, "The record"): parts, entries, regions, source lines.

use crate::bytes::{halfword, word, words};
use crate::issue::{wraps, Issue};

pub const HEADER_BYTES: usize = 28;

/// Largest sizes, in the header's order: import list, code, globals, constants, relocation,
/// version table, source table.
pub const LARGEST: [u32; 7] = [16, 4096, 1024, 1024, 4096, 16, 2048];

/// Words of a data frame before its globals.
pub const HEADER_WORDS: u32 = 3;

/// A sound record, taken apart.
#[derive(Clone, Copy)]
pub struct Record<'a> {
    /// The imported libraries' SIDs as bytes, library 1 first.
    imports: &'a [u8],
    pub code: &'a [u8],
    /// Number of global words (g).
    pub globals: u32,
    /// The constant words as bytes.
    pub constants: &'a [u8],
    /// The relocation entries as bytes.
    relocation: &'a [u8],
    /// The source table's pairs as bytes.
    source: &'a [u8],
    pub procedures: u32,
    /// Whether unsigned results wrap (02, K11).
    pub wraps: bool,
}

/// The code of one procedure.
#[derive(Clone, Copy, Debug)]
pub struct Region {
    pub procedure: u32,
    pub start: usize,
    pub end: usize,
}

/// The whole source line of a code offset (02, K4).
#[derive(Clone, Copy, Debug, PartialEq, Eq)]
pub enum Span {
    /// The line's first and last code offset, and its number.
    Found { first: u32, last: u32, line: u32 },
    /// The offset is outside the code.
    Outside,
}

impl Span {
    /// The line's number alone, 0 outside the code.
    pub fn line(self) -> u32 {
        match self {
            Span::Found { line, .. } => line,
            Span::Outside => 0,
        }
    }
}

/// The parts of a record whose sizes fit, as they stand behind the header.
pub struct Split<'a> {
    pub imports: &'a [u8],
    pub code: &'a [u8],
    /// Number of global words, which have no part.
    pub globals: u32,
    pub constants: &'a [u8],
    pub relocation: &'a [u8],
    pub version: &'a [u8],
    pub source: &'a [u8],
}

impl<'a> Split<'a> {
    /// The parts, or the lowest number of 1 to 3 that applies.
    pub fn read(bytes: &'a [u8]) -> Result<Split<'a>, u32> {
        if bytes.len() < HEADER_BYTES {
            return Err(1);
        }
        let sizes: [u32; 7] = std::array::from_fn(|i| word(bytes, 4 * i));
        if sizes.iter().zip(LARGEST).any(|(&size, largest)| size > largest) {
            return Err(2);
        }
        let [imports, code, globals, constants, relocation, version, source] = sizes;
        let lengths = [4 * imports, code, 4 * constants, 4 * relocation, 4 * version, 4 * source];
        if bytes.len() != HEADER_BYTES + lengths.iter().sum::<u32>() as usize {
            return Err(3);
        }
        let mut rest = &bytes[HEADER_BYTES..];
        let [imports, code, constants, relocation, version, source] = lengths.map(|length| {
            let (part, behind) = rest.split_at(length as usize);
            rest = behind;
            part
        });
        Ok(Split { imports, code, globals, constants, relocation, version, source })
    }
}

impl<'a> Record<'a> {
    /// The record's parts, or the lowest number of 1 to 3 and 5 to 7 that applies.
    pub fn read(bytes: &'a [u8]) -> Result<Record<'a>, u32> {
        let Split { imports, code, globals, constants, relocation, version, source } =
            Split::read(bytes)?;
        if !version_sound(version) {
            return Err(5);
        }
        if !source_sound(source, code.len()) {
            return Err(6);
        }
        let procedures = count_procedures(code).ok_or(7u32)?;
        let wraps = wraps(version);
        Ok(Record { imports, code, globals, constants, relocation, source, procedures, wraps })
    }

    /// Entry offset of a procedure (PROC of 5.2.2).
    pub fn entry(&self, procedure: u32) -> u32 {
        halfword(self.code, 2 * procedure as usize)
    }

    /// Regions in the order of their offsets: procedures 1, 2, .. and then 0.
    pub fn regions(&self) -> Vec<Region> {
        let order = (1..self.procedures).chain([0]);
        let mut regions: Vec<Region> = order
            .map(|procedure| {
                let start = self.entry(procedure) as usize;
                Region { procedure, start, end: self.code.len() }
            })
            .collect();
        for i in 1..regions.len() {
            regions[i - 1].end = regions[i].start;
        }
        regions
    }

    /// Words of the data frame: 3+g+c.
    pub fn frame_words(&self) -> u32 {
        HEADER_WORDS + self.globals + self.constants.len() as u32 / 4
    }

    /// SIDs of the imported libraries, library 1 first.
    pub fn imports(&self) -> impl Iterator<Item = u32> + 'a {
        words(self.imports)
    }

    /// Code offsets of the library bytes to be rewritten.
    pub fn relocation(&self) -> impl Iterator<Item = u32> + 'a {
        words(self.relocation)
    }

    /// Offsets of the source pairs.
    pub fn source_offsets(&self) -> impl DoubleEndedIterator<Item = u32> + Clone + 'a {
        self.source.chunks_exact(8).map(|pair| word(pair, 0))
    }

    /// Source line of a code offset: "A line reaches to the next pair, the last one to the end of
    /// code". What lies before the first pair is line 0, and begins at offset 0.
    pub fn span(&self, offset: u32) -> Span {
        let size = self.code.len() as u32;
        if offset >= size {
            return Span::Outside;
        }
        let covering = self.source.chunks_exact(8).rfind(|pair| word(pair, 0) <= offset);
        let (first, line) = covering.map_or((0, 0), |pair| (word(pair, 0), word(pair, 4)));
        let next = self.source_offsets().find(|&start| start > offset).unwrap_or(size);
        Span::Found { first, last: next - 1, line }
    }
}

/// 0 for a sound record, or its refusal: "the record's own test", of 1 to 3 and 5 to 7.
pub fn number(bytes: &[u8]) -> u32 {
    Record::read(bytes).err().unwrap_or(0)
}

/// Tells whether it is empty, or its first word names an issue.
pub fn version_sound(table: &[u8]) -> bool {
    table.is_empty() || Issue::of_table(table).is_some()
}

/// Whole pairs whose offsets rise strictly and lie below the code size.
fn source_sound(table: &[u8], code_size: usize) -> bool {
    let pairs = table.chunks_exact(8);
    let whole = pairs.remainder().is_empty();
    let mut offsets = pairs.map(|pair| word(pair, 0));
    whole
        && offsets.clone().is_sorted_by(|one, next| one < next)
        && offsets.all(|offset| (offset as usize) < code_size)
}

/// Number of procedures, if the entry table is sound.
fn count_procedures(code: &[u8]) -> Option<u32> {
    let entry = |n: u32| halfword(code, 2 * n as usize);
    let inside = |offset: u32| (offset as usize) < code.len();
    if code.len() < 2 {
        return None;
    }
    if entry(0) == 2 {
        return inside(2).then_some(1);
    }
    if code.len() < 4 {
        return None;
    }
    let first = entry(1);
    if first % 2 != 0 || !(4..=512).contains(&first) || !inside(first) {
        return None;
    }
    let count = first / 2;
    let mut order = (1..count).chain([0]).map(entry);
    let rising = order.clone().is_sorted_by(|one, next| one < next);
    (rising && order.all(inside)).then_some(count)
}

#[cfg(test)]
mod tests {
    use super::{Record, Span};
    use crate::generate::record::Parts;

    /// The spans of each offset of five code bytes and of the one behind them.
    fn spans(source: &[u32]) -> Vec<Option<[u32; 3]>> {
        let code = vec![0, 2, 0xff, 0xff, 0xe9];
        let bytes = Parts { code, source: source.to_vec(), ..Parts::default() }.assemble();
        let record = Record::read(&bytes).expect("a sound record");
        let words = |span| match span {
            Span::Found { first, last, line } => Some([first, last, line]),
            Span::Outside => None,
        };
        (0..6).map(|offset| words(record.span(offset))).collect()
    }

    #[test]
    fn spans_are_those_of_request_k4() {
        let [whole, before] = [[0, 4, 0], [0, 1, 0]].map(Some);
        assert_eq!(spans(&[]), [whole, whole, whole, whole, whole, None]);
        let [one, last] = [[2, 3, 7], [4, 4, 9]].map(Some);
        assert_eq!(spans(&[2, 7, 4, 9]), [before, before, one, one, last, None]);
        // Nothing lies before a pair at 0, and neighbours of one line stay two spans.
        let [one, two] = [[0, 2, 7], [3, 4, 7]].map(Some);
        assert_eq!(spans(&[0, 7, 3, 7]), [one, one, one, two, two, None]);
    }
}
