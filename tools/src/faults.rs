//! The instructions behind the numbers 10 to 14 and 18. Which number it is the library says; the rules
//! here are 01's, and find the places that break them.

use crate::bytes::counted;
use crate::code::Procedure;
use crate::instruction::Instruction;
use crate::sheet::Sheet;
use std::ops::Range;

pub struct Fault {
    /// Offset of the instruction; for 15 the offsets of the procedure.
    pub place: Range<usize>,
    /// Offset of the row of a switch's table that is to blame.
    pub row: Option<usize>,
    pub text: String,
}

impl Fault {
    pub fn at(offset: usize, text: String) -> Fault {
        Fault { place: offset..offset + 1, row: None, text }
    }

    /// Tells whether a row of a listing is to blame, by its offset.
    pub fn holds(&self, offset: usize) -> bool {
        self.place.contains(&offset) || self.row == Some(offset)
    }
}

/// Finds the first instruction that cannot be decoded (10 or 11).
pub fn undecoded(code: &[u8], procedures: &[Procedure]) -> Vec<Fault> {
    let first = procedures.iter().find_map(|procedure| Some((procedure, procedure.bad?.0)));
    let fault = |(procedure, at): (&Procedure, usize)| {
        Fault::at(at, describe_undecoded(&code[at..procedure.region.end], procedure.number))
    };
    first.map(fault).into_iter().collect()
}

/// Says what is wrong with the bytes that are left of a procedure.
fn describe_undecoded(bytes: &[u8], procedure: usize) -> String {
    let sheet = Sheet::get();
    let (prefix, prefix_name) = sheet.prefix;
    let (double, behind) = match bytes {
        [first, behind @ ..] if *first == prefix => (true, behind),
        _ => (false, bytes),
    };
    let Some(&code) = behind.first() else {
        return format!("{prefix_name} is the last byte of procedure {procedure}");
    };
    let before = if double { format!("{prefix_name} before ") } else { String::new() };
    match sheet.with_code(code) {
        None => format!("{before}code {code:02x}, which is not served"),
        Some(form) if double && !form.double => {
            format!("{before}{}, which has no such mode", form.name)
        }
        Some(form) => {
            let left = counted(bytes.len(), "byte", "bytes");
            format!("{before}{} is longer than the {left} left of procedure {procedure}", form.name)
        }
    }
}

/// Finds every successor and switch label that is no start in its region (12).
pub fn successors(code: &[u8], procedures: &[Procedure]) -> Vec<Fault> {
    each(procedures, |procedure, instruction| {
        let mut found = Vec::new();
        let number = procedure.number;
        let mut wrong = |key: String, target: i64, row: Option<usize>| {
            if !procedure.has_start(target) {
                let what = format!("{}{key} leads to offset {target}", instruction.name());
                let text = format!("{what}, where no instruction of procedure {number} begins");
                found.push(Fault { row, ..Fault::at(instruction.at, text) });
            }
        };
        if let Some(target) = instruction.jump_target() {
            wrong(String::new(), target, None);
        }
        for row in instruction.rows(code) {
            if let Some(target) = row.target(instruction.at) {
                wrong(format!(", {}", row.key), target as i64, Some(row.at));
            }
        }
        if instruction.form.falls_through() && instruction.end() == procedure.region.end {
            let text = format!("{} is the last of procedure {number}", instruction.name());
            found.push(Fault::at(instruction.at, format!("{text}, and goes on behind it")));
        }
        found
    })
}

/// Finds every instruction that breaks the rules of ENTER (13).
pub fn enters(procedures: &[Procedure]) -> Vec<Fault> {
    each(procedures, |procedure, instruction| {
        let (number, text) = (procedure.number, instruction.text());
        let first = instruction.at == procedure.region.start;
        let fault = match (instruction.form.name == "ENTER", first) {
            (true, false) => format!("{text} inside procedure {number}"),
            (true, true) if number == 0 && instruction.operand > 0 => {
                format!("{text} gives procedure 0 parameters")
            }
            (false, true) if number > 0 => format!("procedure {number} begins with {text}"),
            _ => return Vec::new(),
        };
        vec![Fault::at(instruction.at, fault)]
    })
}

/// Finds every call of procedure 0 or of one that is not there (14).
pub fn callees(procedures: &[Procedure]) -> Vec<Fault> {
    let count = procedures.len();
    each(procedures, |_, instruction| {
        let text = instruction.text();
        let fault = match instruction.callee() {
            Some(0) => format!("{text} calls procedure 0"),
            Some(callee) if callee as usize >= count => {
                format!("{text}, and there are only the procedures 0 to {}", count - 1)
            }
            _ => return Vec::new(),
        };
        vec![Fault::at(instruction.at, fault)]
    })
}

/// Applies a rule to the instructions, in the order of the code.
pub fn each(
    procedures: &[Procedure],
    rule: impl Fn(&Procedure, &Instruction) -> Vec<Fault>,
) -> Vec<Fault> {
    let all = procedures.iter().flat_map(|one| one.instructions.iter().map(move |i| (one, i)));
    all.flat_map(|(procedure, instruction)| rule(procedure, instruction)).collect()
}
