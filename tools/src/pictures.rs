//! The procedures behind the number 15: those without a stack picture.

use crate::code::Procedure;
use crate::faults::Fault;
use crate::instruction::Instruction;
use crate::record::{from_linked, Record};
use crate::set::Set;
use crate::sheet::Sheet;

/// The number of a record with a procedure that has no stack picture.
pub const NO_PICTURE: u32 = 15;

/// Finds every procedure of a module without a stack picture, by asking the library.
///
/// A procedure's picture depends on its own code, and of the others on their ENTER and their
/// results alone. So each is checked beside stubs: the others with just an ENTER as theirs and an
/// end that has a picture. It has none exactly where the library still answers 15.
pub fn missing(set: &Set, own: usize, record: &Record, procedures: &[Procedure]) -> Vec<Fault> {
    let lacks = |wanted: &&Procedure| {
        let record = beside_stubs(record, procedures, set.modules[own].results, wanted.number);
        let mut modules = set.modules.clone();
        modules[own].record = &record;
        Set::of(modules).check(own).0 == NO_PICTURE
    };
    procedures.iter().filter(lacks).map(describe).collect()
}

fn describe(procedure: &Procedure) -> Fault {
    let (region, number) = (procedure.region.clone(), procedure.number);
    let (first, last) = (region.start, region.end - 1);
    let text = format!("procedure {number}, from offset {first} to {last}");
    Fault { place: region, row: None, text }
}

/// Makes a record of the code in which every procedure but one is a stub.
fn beside_stubs(record: &Record, procedures: &[Procedure], results: &[u8], kept: usize) -> Vec<u8> {
    let mut entries = vec![0; procedures.len()];
    let mut body = Vec::new();
    let mut relocation = Vec::new();
    for procedure in procedures {
        let entry = 2 * procedures.len() + body.len();
        entries[procedure.number] = entry;
        let own = &record.code[procedure.region.clone()];
        if procedure.number == kept {
            body.extend(own);
            let bytes = procedure.instructions.iter().filter_map(Instruction::library_byte);
            relocation.extend(bytes.map(|byte| (byte - procedure.region.start + entry) as u32));
        } else {
            body.extend(stub(own, procedure.number, results));
        }
    }
    let entries = entries.iter().flat_map(|&entry| (entry as u16).to_be_bytes());
    let code: Vec<u8> = entries.chain(body).collect();
    from_linked(&record.imports, &code, &relocation)
}

/// Makes the shortest code that has a picture: RTN where there are no results to leave, else a jump
/// to itself.
fn stub(own: &[u8], number: usize, results: &[u8]) -> Vec<u8> {
    const ENTER_BYTES: usize = 3;
    let sheet = Sheet::get();
    let enter = if number == 0 { &[] } else { &own[..ENTER_BYTES] };
    let end: &[u8] = match results[number] {
        0 => &[sheet.code_of("RTN")],
        _ => &[sheet.code_of("JUMP.b"), 0],
    };
    [enter, end].concat()
}
