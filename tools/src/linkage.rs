//! What is behind the numbers that are about libraries: 17, 18, and the 14 of CALL_E (02, K1).
//! Which number it is the library says.

use crate::bytes::counted;
use crate::code::Procedure;
use crate::faults::{each, Fault};
use crate::record::Record;
use crate::set::Set;
use std::collections::BTreeSet;

const MAX_MODULES: usize = 16;

/// Says why the modules do not belong together, and which one is to blame where a single one is
/// (17).
pub fn of_imports(set: &Set, records: &[Record]) -> (Option<usize>, String) {
    if records.len() > MAX_MODULES {
        return (
            None,
            format!("{}, at most {MAX_MODULES}", counted(records.len(), "module", "modules")),
        );
    }
    let mut sids = BTreeSet::new();
    let lent = set.modules.iter().filter_map(|module| module.library);
    if let Some(twice) = lent.map(|library| library.sid).find(|&sid| !sids.insert(sid)) {
        return (None, format!("SID {twice} is lent twice"));
    }
    for (module, record) in records.iter().enumerate() {
        let missing = record.imports.iter().position(|sid| !sids.contains(sid));
        if let Some(at) = missing {
            let (number, sid) = (at + 1, record.imports[at]);
            let why = "which no --library lends";
            return (Some(module), format!("import {number} is SID {sid}, {why}"));
        }
    }
    (None, String::new())
}

/// Finds the library bytes of the external instructions that are cut.
pub fn library_bytes(procedures: &[Procedure]) -> BTreeSet<u32> {
    let instructions = procedures.iter().flat_map(|procedure| &procedure.instructions);
    instructions.filter_map(|one| Some(one.library_byte()? as u32)).collect()
}

/// Finds every external instruction whose library byte has no entry, or is no number of the import
/// list (18).
pub fn unlinked(record: &Record, procedures: &[Procedure]) -> Vec<Fault> {
    let entries: BTreeSet<u32> = record.relocation.iter().copied().collect();
    each(procedures, |_, instruction| {
        let Some(byte) = instruction.library_byte() else { return Vec::new() };
        let text = instruction.text();
        let fault = match record.import(instruction.operand) {
            None => {
                let imports = counted(record.imports.len(), "import", "imports");
                format!("{text} has library number {} of {imports}", instruction.operand)
            }
            Some(_) if !entries.contains(&(byte as u32)) => {
                format!("{text} has no relocation entry for its library byte at {byte}")
            }
            Some(_) => return Vec::new(),
        };
        vec![Fault::at(instruction.at, fault)]
    })
}

/// Says which relocation entry points at no library byte (18).
pub fn of_relocation(record: &Record, procedures: &[Procedure]) -> String {
    let bytes = library_bytes(procedures);
    match record.relocation.iter().position(|entry| !bytes.contains(entry)) {
        Some(at) => {
            let (number, entry) = (at + 1, record.relocation[at]);
            let why = "where no external instruction has its library byte";
            format!("relocation entry {number} is {entry}, {why}")
        }
        None => String::new(),
    }
}

/// Finds every external call of procedure 0 or of one that its library does not have (14).
pub fn external_callees(
    set: &Set,
    records: &[Record],
    record: &Record,
    procedures: &[Procedure],
) -> Vec<Fault> {
    each(procedures, |_, instruction| {
        let Some((library, callee)) = instruction.external_callee() else { return Vec::new() };
        let module = set.library(record, library);
        let count = module.map_or(0, |module| records[module].entries().len());
        let text = instruction.text_in(record);
        let fault = match callee {
            0 => format!("{text}, which cannot be called"),
            _ if callee as usize >= count => {
                format!(
                    "{text}, and there are only the procedures 0 to {}",
                    count.saturating_sub(1)
                )
            }
            _ => return Vec::new(),
        };
        vec![Fault::at(instruction.at, fault)]
    })
}
