//! Sets of modules (02, K1): imports and relocation, the data frames and the copy of the code. A
//! record by itself is the set of one.

use crate::cut::library_bytes;
use crate::record::{Record, HEADER_WORDS};
use std::collections::BTreeSet;
use std::ops::Range;

pub const MOST_MODULES: usize = 16;

/// A module as it is lent, the main one first. Load and run look at no results list.
#[derive(Clone, Copy, Debug)]
pub struct Lent<'a> {
    /// Counts for nothing in the main module.
    pub sid: u32,
    pub record: &'a [u8],
    pub results: &'a [u8],
}

impl<'a> Lent<'a> {
    /// Lends the main module.
    pub fn main(record: &'a [u8], results: &'a [u8]) -> Lent<'a> {
        Lent { sid: 0, record, results }
    }
}

/// A module of a sound set.
pub struct Module<'a> {
    pub record: Record<'a>,
    pub results: &'a [u8],
    /// The module that each library number of the record names, from number 1 on.
    libraries: Vec<u32>,
    /// First word of its data frame, and first byte of its code in the copy.
    frame_at: u32,
    copy_at: usize,
}

pub struct Set<'a> {
    pub modules: Vec<Module<'a>>,
}

impl<'a> Set<'a> {
    /// Reads the modules, or gives the first number of 1 to 3, 5 to 7, 17 and 18 that applies:
    /// each is looked for "over every module" before the next one.
    pub fn read(lent: &[Lent<'a>]) -> Result<Set<'a>, u32> {
        let read: Vec<_> = lent.iter().map(|module| Record::read(module.record)).collect();
        if let Some(number) = read.iter().filter_map(|record| record.as_ref().err()).min() {
            return Err(*number);
        }
        let records: Vec<Record> = read.into_iter().flatten().collect();
        // No module at all has no record.
        let Some((_, libraries)) = lent.split_first() else { return Err(1) };
        let sids: Vec<u32> = libraries.iter().map(|library| library.sid).collect();
        let links = link(&records, &sids).ok_or(17u32)?;
        if !records.iter().all(relocation_sound) {
            return Err(18);
        }
        let results = lent.iter().map(|module| module.results);
        Ok(Set { modules: laid_out(records, results, links) })
    }

    /// Tells where FP and MP start: behind the last module's constants.
    pub fn frames_at(&self) -> u32 {
        self.modules.last().map_or(0, Module::end)
    }

    /// Finds the module whose first global is at an address (GP and global links).
    #[inline(always)]
    pub fn at_globals(&self, address: u32) -> Option<usize> {
        self.modules.iter().position(|module| module.globals_at() == address)
    }

    /// Counts the bytes of the copy.
    pub fn copy_size(&self) -> usize {
        self.modules.last().map_or(0, |module| module.copy().end)
    }

    /// Makes the copy: each module's code with its library numbers rewritten to module numbers,
    /// "module after module". A number comes from the record, so that a second entry changes
    /// nothing.
    pub fn copy(&self) -> Vec<u8> {
        let mut copy = Vec::with_capacity(self.copy_size());
        for module in &self.modules {
            copy.extend(module.record.code);
            for place in module.record.relocation() {
                let number = module.record.code[place as usize];
                copy[module.copy_at + place as usize] = module.library(number.into()) as u8;
            }
        }
        copy
    }
}

impl Module<'_> {
    /// Finds the module that a library number of the record's code names.
    pub fn library(&self, number: u32) -> usize {
        self.libraries[number as usize - 1] as usize
    }

    /// Tells the first word of its data frame.
    pub fn frame_at(&self) -> u32 {
        self.frame_at
    }

    /// Tells the first word of its globals: GP while the module runs.
    #[inline(always)]
    pub fn globals_at(&self) -> u32 {
        self.frame_at + HEADER_WORDS
    }

    /// Tells the first word of its constants; header word 2 holds it.
    pub fn constants_at(&self) -> u32 {
        self.globals_at() + self.record.globals
    }

    /// Tells the word behind its constants.
    pub fn end(&self) -> u32 {
        self.frame_at + self.record.frame_words()
    }

    /// Gives its globals' addresses.
    pub fn globals(&self) -> Range<u32> {
        self.globals_at()..self.constants_at()
    }

    /// Tells where its code lies in the copy.
    pub fn copy(&self) -> Range<usize> {
        self.copy_at..self.copy_at + self.record.code.len()
    }

    /// Gives the header words of module `number`: no initialization part, its number, its
    /// constants.
    pub fn header(&self, number: usize) -> [u32; HEADER_WORDS as usize] {
        [0, number as u32, self.constants_at()]
    }
}

/// Finds for each module the modules that its import list names. None for an import that is not
/// among the libraries, two libraries under one SID, or too many modules.
fn link(records: &[Record], sids: &[u32]) -> Option<Vec<Vec<u32>>> {
    let different: BTreeSet<u32> = sids.iter().copied().collect();
    if different.len() < sids.len() || records.len() > MOST_MODULES {
        return None;
    }
    let number = |import| sids.iter().position(|&sid| sid == import).map(|at| at as u32 + 1);
    records.iter().map(|record| record.imports().map(number).collect()).collect()
}

/// Tells whether the entries point at just the library bytes of the external instructions that are
/// cut, and each of these has a number of the import list.
fn relocation_sound(record: &Record) -> bool {
    let entries: BTreeSet<usize> = record.relocation().map(|entry| entry as usize).collect();
    let places = library_bytes(record);
    let imports = record.imports().count();
    places.iter().all(|&place| (1..=imports).contains(&record.code[place].into()))
        && entries == BTreeSet::from_iter(places)
}

/// Lays data frames and code out in module order, without gaps.
fn laid_out<'a>(
    records: Vec<Record<'a>>,
    results: impl Iterator<Item = &'a [u8]>,
    links: Vec<Vec<u32>>,
) -> Vec<Module<'a>> {
    let (mut frame_at, mut copy_at) = (0, 0);
    let lay = |((record, results), libraries): ((Record<'a>, _), _)| {
        let module = Module { record, results, libraries, frame_at, copy_at };
        (frame_at, copy_at) = (module.end(), module.copy().end);
        module
    };
    records.into_iter().zip(results).zip(links).map(lay).collect()
}

#[cfg(test)]
mod tests {
    use super::{Lent, Set, MOST_MODULES};
    use crate::generate::record::Parts;

    /// A record of procedure 0 alone, behind its entry.
    fn record(imports: &[u32], code: &[u8], relocation: &[u32]) -> Vec<u8> {
        let parts = Parts {
            imports: imports.to_vec(),
            code: [&[0, 2], code].concat(),
            globals: 2,
            constants: vec![5],
            relocation: relocation.to_vec(),
            ..Parts::default()
        };
        parts.assemble()
    }

    /// The number of a set of a main module and the libraries 7 and 8, which return at once.
    fn number(main: &[u8]) -> Option<u32> {
        let plain = record(&[], &[0xe9], &[]);
        let library = |sid| Lent { sid, record: &plain, results: &[] };
        Set::read(&[Lent::main(main, &[]), library(7), library(8)]).err()
    }

    #[test]
    fn frames_and_copy_lie_in_module_order() {
        // One list names SID 8 twice, which is also the main module's, one entry stands twice, and
        // library 7 imports itself.
        let code = [0x91, 2, 0, 0x91, 1, 1, 0xe9];
        let main = record(&[8, 7, 8], &code, &[6, 3, 6]);
        let library = record(&[7], &[0x91, 1, 9, 0xe9], &[3]);
        let last = record(&[], &[0xe9], &[]);
        let lent = [
            Lent { sid: 8, record: &main, results: &[] },
            Lent { sid: 7, record: &library, results: &[] },
            Lent { sid: 8, record: &last, results: &[] },
        ];
        let set = Set::read(&lent).unwrap_or_else(|number| panic!("{number}"));
        let copy = [&[0, 2, 0x91, 1, 0, 0x91, 2, 1, 0xe9][..], &[0, 2, 0x91, 1, 9, 0xe9]];
        assert_eq!(set.copy(), [&copy.concat()[..], &[0, 2, 0xe9]].concat());
        assert_eq!(set.frames_at(), 18);
        assert_eq!(set.modules[2].header(2), [0, 2, 17]);
        assert_eq!([3, 9, 15, 0].map(|at| set.at_globals(at)), [Some(0), Some(1), Some(2), None]);
    }

    #[test]
    fn imports_are_lent_under_different_sids() {
        let plain = record(&[], &[0xe9], &[]);
        let lend = |sid| Lent { sid, record: &plain, results: &[] };
        let number = |sids: &[u32]| {
            let lent: Vec<Lent> = sids.iter().map(|&sid| lend(sid)).collect();
            Set::read(&lent).err()
        };
        let many: Vec<u32> = (0..MOST_MODULES as u32 + 1).collect();
        assert_eq!(number(&many[..MOST_MODULES]), None);
        assert_eq!(number(&many), Some(17));
        // The main module's counts for nothing.
        assert_eq!(number(&[4, 4]), None);
        assert_eq!(number(&[1, 4, 5, 4]), Some(17));
        assert_eq!(number(&[]), Some(1));
        let imports_main = record(&[0], &[0xe9], &[]);
        assert_eq!(Set::read(&[Lent::main(&imports_main, &[])]).err(), Some(17));
    }

    #[test]
    fn relocation_entries_are_the_library_bytes_that_are_cut() {
        let external = [0x89, 1, 0, 0xe9];
        assert_eq!(number(&record(&[7], &external, &[3])), None);
        assert_eq!(number(&record(&[9], &external, &[3])), Some(17));
        assert_eq!(number(&record(&[7], &external, &[])), Some(18));
        for entry in [2, 4, 5, 6, u32::MAX] {
            assert_eq!(number(&record(&[7], &external, &[3, entry])), Some(18));
        }
        for library in [0, 2, 255] {
            assert_eq!(number(&record(&[7], &[0x89, library, 0, 0xe9], &[3])), Some(18));
        }
        // After DOUBLE, behind a bad instruction, or past its region it is not cut.
        for code in [&[0xf5, 0x89, 1, 0][..], &[0xfe, 0x89, 1, 0], &[0x89, 1]] {
            assert_eq!(number(&record(&[7], code, &[])), None);
            let at = 3 + code.iter().position(|&byte| byte == 0x89).unwrap_or(0);
            assert_eq!(number(&record(&[7], code, &[at as u32])), Some(18));
        }
    }
}
