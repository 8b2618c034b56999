//! The module and the reason behind a number of check and load. Which number it is the library says.

use crate::code::{procedures, Procedure};
use crate::faults::{self, Fault};
use crate::pictures::{self, NO_PICTURE};
use crate::record::Record;
use crate::run_file::RunFile;
use crate::set::{Module, Set};
use crate::{library, linkage, record_faults};

/// Numbers: the last of a record, of a load, of modules that do not belong together, of a relocation
/// table.
const MAX_RECORD_NUMBER: u32 = 7;
const LOAD_REFUSED: u32 = 8;
const IMPORTS_REFUSED: u32 = 17;
const RELOCATION_REFUSED: u32 = 18;

/// What is behind a number.
pub struct Blame {
    /// None where no single one is to blame.
    pub module: Option<usize>,
    pub reason: String,
    pub faults: Vec<Fault>,
}

impl Blame {
    /// Finds it; refused is the module whose check gave the number.
    pub fn find(number: u32, refused: usize, set: &Set, file: Option<&RunFile>) -> Blame {
        let plain = |(module, reason)| Blame { module, reason, faults: Vec::new() };
        if (1..=MAX_RECORD_NUMBER).contains(&number) {
            return plain(of_records(number, set));
        }
        let Some(records) = set.records() else { return plain((None, String::new())) };
        match (number, file) {
            (LOAD_REFUSED, Some(file)) => plain((None, record_faults::of_load(&records, file))),
            (IMPORTS_REFUSED, _) => plain(linkage::of_imports(set, &records)),
            (NO_PICTURE, _) => Blame::of_module(number, set, &records, refused),
            _ => {
                let modules = 0..records.len();
                let mut all = modules.map(|own| Blame::of_module(number, set, &records, own));
                let found = all.find(|blame| !blame.reason.is_empty());
                found.unwrap_or(plain((None, String::new())))
            }
        }
    }

    /// Finds what a module has to do with a number from 9 on; the reason is empty where nothing.
    fn of_module(number: u32, set: &Set, records: &[Record], own: usize) -> Blame {
        let record = &records[own];
        let procedures = procedures(record);
        let faults = find_faults(number, set, records, own, &procedures);
        let reason = match number {
            9 => record_faults::of_results(set.modules[own].results, procedures.len()),
            RELOCATION_REFUSED if faults.is_empty() => linkage::of_relocation(record, &procedures),
            _ => describe(record, number, &faults),
        };
        Blame { module: Some(own), reason, faults }
    }
}

/// Finds the first module whose record has a number, and why it does: 1 to 7.
fn of_records(number: u32, set: &Set) -> (Option<usize>, String) {
    let has_it = |module: &Module| library::record_number(module.record) == number;
    let Some(own) = set.modules.iter().position(has_it) else { return (None, String::new()) };
    let bytes = set.modules[own].record;
    let reason = match Record::split(bytes) {
        Err(_) => record_faults::of_sizes(bytes),
        Ok(record) => record_faults::of_parts(&record),
    };
    (Some(own), reason)
}

fn find_faults(
    number: u32,
    set: &Set,
    records: &[Record],
    own: usize,
    procedures: &[Procedure],
) -> Vec<Fault> {
    let record = &records[own];
    match number {
        10 | 11 => faults::undecoded(record.code, procedures),
        12 => faults::successors(record.code, procedures),
        13 => faults::enters(procedures),
        14 => {
            let external = linkage::external_callees(set, records, record, procedures);
            faults::callees(procedures).into_iter().chain(external).collect()
        }
        NO_PICTURE => pictures::missing(set, own, record, procedures),
        RELOCATION_REFUSED => linkage::unlinked(record, procedures),
        _ => Vec::new(),
    }
}

/// Describes the first fault with its place, and counts the others.
fn describe(record: &Record, number: u32, faults: &[Fault]) -> String {
    let [first, others @ ..] = faults else { return String::new() };
    let place = match number {
        NO_PICTURE => String::new(),
        _ => format!("{}: ", record.place(first.place.start)),
    };
    match others.len() {
        0 => format!("{place}{}", first.text),
        more => format!("{place}{}; and {more} more", first.text),
    }
}
