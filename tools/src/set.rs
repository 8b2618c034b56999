//! Modules that belong together, as the library is lent them: the main one, then the libraries (02,
//! K1). A record by itself is the set of one.

use crate::libraries::{Libraries, Library};
use crate::library::{self, OUTCOME_WORDS, STATE_WORDS};
use crate::record::Record;

/// The words of a frame before its globals.
pub const FRAME_HEAD_WORDS: usize = 3;
const HALFWORDS_OF_BYTE: usize = 4;

#[derive(Clone, Copy)]
pub struct Module<'a> {
    pub record: &'a [u8],
    pub results: &'a [u8],
    /// None for the main one.
    pub library: Option<&'a Library>,
}

pub struct Set<'a> {
    pub modules: Vec<Module<'a>>,
    records: Vec<u8>,
    results: Vec<u8>,
    directory: Vec<u32>,
}

impl<'a> Set<'a> {
    /// Puts libraries behind a main module.
    pub fn new(record: &'a [u8], results: &'a [u8], libraries: &'a Libraries) -> Set<'a> {
        let main = Module { record, results, library: None };
        let library = |library: &'a Library| Module {
            record: &library.record,
            results: &library.results,
            library: Some(library),
        };
        Set::of([main].into_iter().chain(libraries.0.iter().map(library)).collect())
    }

    pub fn of(modules: Vec<Module<'a>>) -> Set<'a> {
        let row = |module: &Module| {
            let sid = module.library.map_or(0, |library| library.sid);
            let workspace = HALFWORDS_OF_BYTE * module.record.len();
            [sid, module.record.len() as u32, module.results.len() as u32, workspace as u32]
        };
        let directory = modules.iter().flat_map(row).collect();
        let records = modules.iter().flat_map(|module| module.record).copied().collect();
        let results = modules.iter().flat_map(|module| module.results).copied().collect();
        Set { modules, records, results, directory }
    }

    /// Checks a module: its number, and the workspace that it leaves.
    pub fn check(&self, own: usize) -> (u32, Vec<u16>) {
        let code = Record::split(self.modules[own].record).map_or(0, |record| record.code.len());
        let mut workspace = vec![0; HALFWORDS_OF_BYTE * code];
        let Set { records, results, directory, .. } = self;
        let number = library::set_check(records, results, directory, own as u32, &mut workspace);
        (number, workspace)
    }

    /// Loads, and answers 0 or the number that refuses the set.
    pub fn load(
        &self,
        parameters: &[u32],
        copy: &mut [u8],
        memory: &mut [u32],
        stack: &mut [u32],
        state: &mut [u32; STATE_WORDS],
    ) -> u32 {
        library::set_load(&self.records, &self.directory, parameters, copy, memory, stack, state)
    }

    /// Runs, and answers 0 or the number that refuses it.
    pub fn run(
        &self,
        budget: u32,
        copy: &mut [u8],
        memory: &mut [u32],
        stack: &mut [u32],
        state: &mut [u32; STATE_WORDS],
        outcome: &mut [u32; OUTCOME_WORDS],
    ) -> u32 {
        let Set { records, directory, .. } = self;
        library::set_run(records, directory, budget, copy, memory, stack, state, outcome)
    }

    /// Finds the module that a library number of a record stands for.
    pub fn library(&self, record: &Record, number: u32) -> Option<usize> {
        let sid = record.import(number)?;
        self.modules.iter().position(|module| module.library.is_some_and(|lent| lent.sid == sid))
    }

    /// Splits the records; none where one is not sound.
    pub fn records(&self) -> Option<Vec<Record<'a>>> {
        self.modules.iter().map(|module| Record::split(module.record).ok()).collect()
    }

    /// Counts the bytes of all code.
    pub fn code_bytes(&self) -> usize {
        self.records().map_or(0, |records| records.iter().map(|record| record.code.len()).sum())
    }

    /// Finds where each module's data frame begins in memory, and last where they all end.
    pub fn frames(&self) -> Vec<usize> {
        let records = self.records().unwrap_or_default();
        let mut at = 0;
        let mut frames = vec![at];
        for record in records {
            at += record.loaded_words();
            frames.push(at);
        }
        frames
    }
}
