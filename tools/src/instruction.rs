//! An instruction of the code, as the library decodes it, in the manual's words.

use crate::library;
use crate::record::Record;
use crate::sheet::{Form, Operands, Sheet};
use crate::switch_table::{self, Row};

pub struct Instruction {
    /// Offset of its first byte.
    pub at: usize,
    pub form: &'static Form,
    /// Whether DOUBLE stands before it.
    pub double: bool,
    /// The library number of an external one.
    pub operand: u32,
    /// The second operand, of ENTER and of an external one.
    pub second: u32,
    /// In bytes, with the prefix.
    pub len: usize,
}

impl Instruction {
    /// Decodes the instruction at a place, which has to end at or before the limit; else 10 or 11.
    pub fn decode(code: &[u8], limit: usize, at: usize) -> Result<Instruction, u32> {
        let decoded = library::decode(code, limit, at)?;
        let code_byte = code[at + usize::from(decoded.double)];
        let form = Sheet::get().with_code(code_byte).ok_or(library::UNSERVED)?;
        let library::Decoded { double, operand, second, len } = decoded;
        Ok(Instruction { at, form, double, operand, second, len })
    }

    pub fn is_switch(&self) -> bool {
        self.form.operands() == Operands::Table
    }

    /// Answers the offset behind it.
    pub fn end(&self) -> usize {
        self.at + self.len
    }

    /// Answers the procedure of the same module that it calls.
    pub fn callee(&self) -> Option<u32> {
        (self.form.name.starts_with("CALL") && !self.is_external()).then_some(self.operand)
    }

    /// Answers the library number and the procedure there that it calls.
    pub fn external_callee(&self) -> Option<(u32, u32)> {
        (self.form.name == "CALL_E").then_some((self.operand, self.second))
    }

    pub fn is_external(&self) -> bool {
        self.form.operands() == Operands::External
    }

    /// Answers the offset of an external one's library byte.
    pub fn library_byte(&self) -> Option<usize> {
        self.is_external().then_some(self.at + 1)
    }

    /// Writes the name as the manual does, with the prefix before it.
    pub fn name(&self) -> String {
        named(self.form, self.double)
    }

    /// Writes the name with its operands; a distance also as the offset that it leads to.
    pub fn text(&self) -> String {
        match self.jump_target() {
            Some(target) => {
                format!("{} {:+} -> {target}", self.name(), self.operand as i32)
            }
            None => self.text_without_target(),
        }
    }

    /// Writes the same; of an external one also the SID of its library, and what it is there.
    pub fn text_in(&self, record: &Record) -> String {
        let text = self.text();
        match record.import(self.operand).filter(|_| self.is_external()) {
            Some(sid) => {
                let what = if self.external_callee().is_some() { "procedure" } else { "global" };
                format!("{text} -> SID {sid}, {what} {}", self.second)
            }
            None => text,
        }
    }

    /// Writes the name with its operands, as numbers alone. Only LOAD_C.w has a word, a signed one.
    pub fn text_without_target(&self) -> String {
        let (name, operand) = (self.name(), self.operand as i32);
        match self.form.operands() {
            Operands::Absent => name,
            Operands::Distance => format!("{name} {operand:+}"),
            Operands::Number | Operands::Procedure | Operands::Table => format!("{name} {operand}"),
            Operands::Two | Operands::External => format!("{name} {operand}, {}", self.second),
        }
    }

    /// Finds where a jump or the way past a loop leads, which may be outside the code.
    pub fn jump_target(&self) -> Option<i64> {
        let distance = i64::from(self.operand as i32);
        (self.form.operands() == Operands::Distance).then_some(self.at as i64 + distance)
    }

    /// Reads the rows of a switch's table; none for other instructions.
    pub fn rows(&self, code: &[u8]) -> Vec<Row> {
        if self.is_switch() {
            switch_table::rows(code, self)
        } else {
            Vec::new()
        }
    }

    /// Finds every place that the bytes name to go on at: of a jump, or of a switch with its exit.
    pub fn targets(&self, code: &[u8]) -> Vec<i64> {
        let rows = self.rows(code);
        let from_rows = rows.iter().filter_map(|row| row.target(self.at)).map(|at| at as i64);
        self.jump_target().into_iter().chain(from_rows).collect()
    }
}

/// Writes the name of an instruction, with the prefix before it.
pub fn named(form: &Form, double: bool) -> String {
    match double {
        true => format!("{} {}", Sheet::get().prefix.1, form.name),
        false => form.name.to_string(),
    }
}
