//! The parts of a record.

use crate::bytes::{halfword, word, word_bytes, words};
use crate::library;

pub const HEADER_BYTES: usize = 28;

/// Length of the longest record.
pub const MAX_BYTES: usize = HEADER_BYTES + 4096 + 4 * (16 + 1024 + 4096 + 16 + 2048);

pub struct Kind {
    pub name: &'static str,
    pub unit: &'static str,
    pub max: u32,
    /// 0 for the globals, which are not in the record.
    unit_bytes: u32,
}

/// The parts in the order of their sizes in the header.
pub const KINDS: [Kind; 7] = [
    Kind { name: "imports", unit: "words", max: 16, unit_bytes: 4 },
    Kind { name: "code", unit: "bytes", max: 4096, unit_bytes: 1 },
    Kind { name: "globals", unit: "words", max: 1024, unit_bytes: 0 },
    Kind { name: "constants", unit: "words", max: 1024, unit_bytes: 4 },
    Kind { name: "relocation", unit: "words", max: 4096, unit_bytes: 4 },
    Kind { name: "version", unit: "words", max: 16, unit_bytes: 4 },
    Kind { name: "source", unit: "words", max: 2048, unit_bytes: 4 },
];

/// Reads the sizes in a header; none where the record is too short to have one.
pub fn sizes(record: &[u8]) -> Option<[u32; 7]> {
    let header = record.get(..HEADER_BYTES)?;
    Some(std::array::from_fn(|i| word(header, 4 * i)))
}

/// Adds up the length that the sizes come to, with the header.
pub fn total_bytes(sizes: &[u32; 7]) -> u64 {
    let parts = sizes.iter().zip(&KINDS);
    let len = |(&size, kind): (&u32, &Kind)| u64::from(size) * u64::from(kind.unit_bytes);
    HEADER_BYTES as u64 + parts.map(len).sum::<u64>()
}

/// Makes a record that has nothing but code and a version table.
pub fn from_code(code: &[u8], version: &[u8]) -> Vec<u8> {
    let sizes = [0, code.len(), 0, 0, 0, version.len() / 4, 0];
    [&word_bytes(sizes.map(|size| size as u32)), code, version].concat()
}

/// Makes a record that has nothing but code and what links it to libraries.
pub fn from_linked(imports: &[u32], code: &[u8], relocation: &[u32]) -> Vec<u8> {
    let sizes = [imports.len(), code.len(), 0, 0, relocation.len(), 0, 0];
    let (header, imports) =
        (word_bytes(sizes.map(|size| size as u32)), word_bytes(imports.to_vec()));
    [&header, &imports, code, &word_bytes(relocation.to_vec())].concat()
}

/// A record whose parts stand where its sizes say.
pub struct Record<'a> {
    pub bytes: &'a [u8],
    /// 0 where it is sound, else 5 to 7.
    pub number: u32,
    /// SIDs of libraries.
    pub imports: Vec<u32>,
    pub globals: u32,
    pub code: &'a [u8],
    pub constants: &'a [u8],
    /// Offsets of library bytes in the code.
    pub relocation: Vec<u32>,
    pub version: &'a [u8],
    pub source: &'a [u8],
}

impl<'a> Record<'a> {
    /// Finds the parts; else the number of a record whose sizes do not fit, 1 to 3.
    pub fn split(bytes: &'a [u8]) -> Result<Record<'a>, u32> {
        let number = library::record_number(bytes);
        match (number, sizes(bytes)) {
            (0 | 5.., Some(sizes)) => Ok(Record::cut(bytes, number, &sizes)),
            _ => Err(number),
        }
    }

    fn cut(bytes: &'a [u8], number: u32, sizes: &[u32; 7]) -> Record<'a> {
        let mut rest = &bytes[HEADER_BYTES..];
        let mut next = |i: usize| {
            let (part, behind) = rest.split_at((sizes[i] * KINDS[i].unit_bytes) as usize);
            rest = behind;
            part
        };
        let [imports, code, _, constants, relocation, version, source] =
            std::array::from_fn(&mut next);
        let (imports, relocation, globals) = (words(imports), words(relocation), sizes[2]);
        Record { bytes, number, imports, globals, code, constants, relocation, version, source }
    }

    /// Finds the SID of a library number, which counts from 1.
    pub fn import(&self, number: u32) -> Option<u32> {
        let at = (number as usize).checked_sub(1)?;
        self.imports.get(at).copied()
    }

    /// Counts the words of memory that a load takes at least: 01's 3+g+c.
    pub fn loaded_words(&self) -> usize {
        3 + self.globals as usize + self.constants.len() / 4
    }

    /// Reads the source table's pairs of an offset and a line.
    pub fn source_pairs(&self) -> Vec<(u32, u32)> {
        words(self.source).chunks_exact(2).map(|pair| (pair[0], pair[1])).collect()
    }

    /// Reads the offset at which each procedure of a sound record begins. 01: "If entry 0 is 2,
    /// there is one"; else half of entry 1 is their number.
    pub fn entries(&self) -> Vec<usize> {
        let entry = |procedure: usize| usize::from(halfword(self.code, 2 * procedure));
        let count = if entry(0) == 2 { 1 } else { entry(1) / 2 };
        (0..count).map(entry).collect()
    }

    /// Names a place of the code: its offset, and its source line where it has one.
    pub fn place(&self, offset: usize) -> String {
        match library::line_span(self.bytes, offset) {
            Some(span) if span.line > 0 => format!("offset {offset}, source line {}", span.line),
            _ => format!("offset {offset}"),
        }
    }
}
