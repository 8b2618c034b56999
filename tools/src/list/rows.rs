//! The code of a record, row by row.

use super::marks::Marks;
use crate::bytes::hex;
use crate::code::{procedures, Procedure};
use crate::instruction::Instruction;
use crate::library;
use crate::meaning::meaning;
use crate::record::Record;
use crate::switch_table::{Row, HEAD_BYTES};
use std::io::{self, Write};
use std::ops::Range;

const BYTES_IN_ROW: usize = 16;

pub struct Listing<'a> {
    /// A sound one.
    pub record: &'a Record<'a>,
    /// As the check left it: all 0 where it refused.
    pub workspace: &'a [u16],
    pub marks: &'a Marks<'a>,
}

impl Listing<'_> {
    /// Prints the procedures in the order of their code.
    pub fn print(&self, out: &mut impl Write) -> io::Result<()> {
        writeln!(out, "offset       line height  label  {:<26}  bytes", "instruction")?;
        for procedure in procedures(self.record) {
            writeln!(out, "procedure {}", procedure.number)?;
            self.print_procedure(out, &procedure)?;
        }
        Ok(())
    }

    /// Prints the instructions of a procedure, up to the first that cannot be decoded; from there
    /// on its bytes.
    fn print_procedure(&self, out: &mut impl Write, procedure: &Procedure) -> io::Result<()> {
        for instruction in &procedure.instructions {
            self.print_instruction(out, instruction)?;
            for row in instruction.rows(self.record.code) {
                self.print_row(out, instruction.at, &row)?;
            }
        }
        let Some((at, number)) = procedure.bad else { return Ok(()) };
        writeln!(out, "{}{at:5}  {number}: {}", self.marks.at(at), meaning(number))?;
        print_bytes(out, self.record.code, at..procedure.region.end)
    }

    fn print_instruction(&self, out: &mut impl Write, shown: &Instruction) -> io::Result<()> {
        let at = shown.at;
        let mark = self.marks.at(at);
        let line = library::line_span(self.record.bytes, at).map_or(0, |span| span.line);
        let height = workspace_text(self.workspace[4 * at]);
        let label = workspace_text(self.workspace[4 * at + 1]);
        let text = shown.text_in(self.record);
        let len = if shown.is_switch() { HEAD_BYTES } else { shown.len };
        let bytes = hex(&self.record.code[at..at + len]);
        writeln!(out, "{mark}{at:5} {line:10} {height:>6} {label:>6}  {text:<26}  {bytes}")
    }

    /// Prints a row of a switch's table, in the columns of an instruction; line, height and label
    /// stay empty.
    fn print_row(&self, out: &mut impl Write, switch: usize, row: &Row) -> io::Result<()> {
        let Row { at, len, key, .. } = row;
        let target = row.target(switch).map_or("else".to_string(), |target| target.to_string());
        let text = format!("{key} -> {target}");
        let bytes = hex(&self.record.code[*at..at + len]);
        writeln!(out, "{}{at:5} {:24}    {text:<24}  {bytes}", self.marks.at(*at), "")
    }
}

/// Prints code that is not cut into instructions.
pub fn print_uncut(out: &mut impl Write, code: &[u8]) -> io::Result<()> {
    writeln!(out, "code, not cut into instructions")?;
    print_bytes(out, code, 0..code.len())
}

fn print_bytes(out: &mut impl Write, code: &[u8], place: Range<usize>) -> io::Result<()> {
    for at in place.clone().step_by(BYTES_IN_ROW) {
        let end = place.end.min(at + BYTES_IN_ROW);
        writeln!(out, "{at:6}  {}", hex(&code[at..end]))?;
    }
    Ok(())
}

/// Writes what a halfword of the workspace stands for: one less than it is, and nothing for 0.
fn workspace_text(left: u16) -> String {
    left.checked_sub(1).map_or("-".to_string(), |number| number.to_string())
}
