//! A record or run file as the text that `icode asm` makes it from.

use crate::bytes::{spaced, word, words};
use crate::code::{procedures, Procedure};
use crate::instruction::Instruction;
use crate::judged::Judged;
use crate::linkage::library_bytes;
use crate::meaning::meaning;
use crate::record::Record;
use crate::run_file::RunFile;
use std::collections::BTreeMap;
use std::io::{self, Write};

const WORDS_IN_ROW: usize = 8;
const BYTES_IN_ROW: usize = 16;

/// Prints the text of a sound record, and of its run file.
pub fn print(out: &mut impl Write, listed: &Judged, record: &Record) -> io::Result<()> {
    let verdict = &listed.verdict;
    if !verdict.is_accepted() {
        let (number, reason) = (verdict.number, &verdict.reason);
        writeln!(out, "; check {number}: {}\n; {reason}", meaning(number))?;
    }
    if let Some(file) = &listed.file {
        print_head(out, file)?;
    }
    if let Some(results) = &listed.results {
        writeln!(out, ".results{}", spaced(results))?;
    }
    print_tables(out, record)?;
    print_linkage(out, record)?;
    let mut lines: BTreeMap<usize, u32> =
        record.source_pairs().into_iter().map(|(offset, line)| (offset as usize, line)).collect();
    let procedures = procedures(record);
    print_lines_elsewhere(out, &procedures, &mut lines)?;
    for procedure in &procedures {
        writeln!(out, "\n.procedure {}", procedure.number)?;
        Text { code: record.code, procedure, lines: &lines }.print(out)?;
    }
    Ok(())
}

fn print_head(out: &mut impl Write, file: &RunFile) -> io::Result<()> {
    print_words(out, ".parameters", &file.parameters)?;
    writeln!(out, ".budget {}", file.budget)?;
    writeln!(out, ".memory {}", file.memory_words)?;
    writeln!(out, ".stack {}", file.stack_words)
}

fn print_tables(out: &mut impl Write, record: &Record) -> io::Result<()> {
    if record.globals > 0 {
        writeln!(out, ".globals {}", record.globals)?;
    }
    print_words(out, ".constants", &words(record.constants))?;
    if !record.version.is_empty() {
        let words = record.version.chunks_exact(4).map(version_word);
        writeln!(out, ".version{}", spaced(words))?;
    }
    Ok(())
}

/// Prints the import list, and the relocation table where it is another than the assembler writes.
fn print_linkage(out: &mut impl Write, record: &Record) -> io::Result<()> {
    print_words(out, ".import", &record.imports)?;
    let written: Vec<u32> = library_bytes(&procedures(record)).into_iter().collect();
    match &record.relocation[..] {
        relocation if relocation == written => Ok(()),
        [] => writeln!(out, ".relocation"),
        relocation => print_words(out, ".relocation", relocation),
    }
}

fn print_words(out: &mut impl Write, directive: &str, words: &[u32]) -> io::Result<()> {
    words.chunks(WORDS_IN_ROW).try_for_each(|row| writeln!(out, "{directive}{}", spaced(row)))
}

/// Writes a word of the version table as its four characters, where a string can have them.
fn version_word(bytes: &[u8]) -> String {
    let plain = |byte: &u8| matches!(byte, b' '..=b'~') && !matches!(byte, b'"' | b'\\');
    match std::str::from_utf8(bytes) {
        Ok(text) if bytes.iter().all(plain) => format!("\"{text}\""),
        _ => word(bytes, 0).to_string(),
    }
}

/// Prints the source pairs that stand at no instruction, with their offsets, and takes them out.
fn print_lines_elsewhere(
    out: &mut impl Write,
    procedures: &[Procedure],
    lines: &mut BTreeMap<usize, u32>,
) -> io::Result<()> {
    let at_start = |offset: &usize| procedures.iter().any(|one| one.has_start(*offset as i64));
    let elsewhere: Vec<usize> = lines.keys().copied().filter(|at| !at_start(at)).collect();
    for offset in elsewhere {
        if let Some(line) = lines.remove(&offset) {
            writeln!(out, ".line {line} at {offset}")?;
        }
    }
    Ok(())
}

/// The text of a procedure.
struct Text<'a> {
    code: &'a [u8],
    procedure: &'a Procedure,
    /// Source lines by the offset of the instruction at which they begin.
    lines: &'a BTreeMap<usize, u32>,
}

impl Text<'_> {
    fn print(&self, out: &mut impl Write) -> io::Result<()> {
        let instructions = &self.procedure.instructions;
        let mut labels: Vec<i64> =
            instructions.iter().flat_map(|one| one.targets(self.code)).collect();
        labels.sort_unstable();
        for instruction in instructions {
            if let Some(line) = self.lines.get(&instruction.at) {
                writeln!(out, ".line {line}")?;
            }
            if labels.binary_search(&(instruction.at as i64)).is_ok() {
                writeln!(out, "{}:", label(instruction.at as i64))?;
            }
            self.print_instruction(out, instruction)?;
        }
        let Some((at, _)) = self.procedure.bad else { return Ok(()) };
        for row in self.code[at..self.procedure.region.end].chunks(BYTES_IN_ROW) {
            writeln!(out, "    .bytes{}", spaced(row))?;
        }
        Ok(())
    }

    fn print_instruction(&self, out: &mut impl Write, shown: &Instruction) -> io::Result<()> {
        match shown.jump_target() {
            Some(target) if self.procedure.has_start(target) => {
                writeln!(out, "    {} {}", shown.name(), label(target))?;
            }
            _ => writeln!(out, "    {}", shown.text_without_target())?,
        }
        for row in shown.rows(self.code) {
            let target = match row.target(shown.at) {
                None => "else".to_string(),
                Some(target) if self.procedure.has_start(target as i64) => label(target as i64),
                Some(_) => format!("+{}", row.distance),
            };
            writeln!(out, "      {} -> {target}", row.key)?;
        }
        Ok(())
    }
}

/// Names the label of an offset.
fn label(offset: i64) -> String {
    format!("L{offset}")
}
