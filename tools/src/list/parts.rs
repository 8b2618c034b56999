//! The head of a run file, and the sizes and tables of a record.

use crate::bytes::{hex, quoted, spaced, words};
use crate::code::procedures;
use crate::instruction::Instruction;
use crate::libraries::Libraries;
use crate::machine::wraps;
use crate::record::{sizes, total_bytes, Kind, Record, KINDS};
use crate::run_file::RunFile;
use std::collections::BTreeMap;
use std::io::{self, Write};

const WORDS_IN_ROW: usize = 8;

pub fn print_head(out: &mut impl Write, file: &RunFile, file_len: usize) -> io::Result<()> {
    writeln!(out, "run file, {file_len} bytes")?;
    writeln!(out, "  results   {}", spaced(file.results))?;
    print_words(out, "parameters", &file.parameters)?;
    writeln!(out, "  budget     {} steps", file.budget)?;
    writeln!(out, "  memory     {} words", file.memory_words)?;
    writeln!(out, "  stack      {} words", file.stack_words)
}

/// Prints the sizes in a record's header, and the length that they come to.
pub fn print_sizes(out: &mut impl Write, record: &[u8]) -> io::Result<()> {
    writeln!(out, "record, {} bytes", record.len())?;
    let Some(sizes) = sizes(record) else { return Ok(()) };
    for (size, Kind { name, unit, max, .. }) in sizes.iter().zip(&KINDS) {
        writeln!(out, "  {name:<10} {size} of at most {max} {unit}")?;
    }
    writeln!(out, "  in all     {} bytes with the header", total_bytes(&sizes))
}

/// Prints the import list by library numbers, with the libraries that are lent, and the relocation
/// table with the instructions that its entries point at.
pub fn print_imports(
    out: &mut impl Write,
    record: &Record,
    libraries: &Libraries,
) -> io::Result<()> {
    for (number, &sid) in (1..).zip(&record.imports) {
        let lent = libraries.0.iter().find(|library| library.sid == sid);
        let lent = lent.map_or("not lent".to_string(), |library| library.file());
        writeln!(out, "  import     {number}: SID {sid}, {lent}")?;
    }
    let procedures = if record.number == 0 { procedures(record) } else { Vec::new() };
    let all = procedures.iter().flat_map(|procedure| &procedure.instructions);
    let external: BTreeMap<u32, &Instruction> =
        all.filter_map(|one| Some((one.library_byte()? as u32, one))).collect();
    for entry in &record.relocation {
        let found = external.get(entry);
        let text = found.map_or("stray, at no library byte".to_string(), |one| {
            format!("{} at {}", one.text(), one.at)
        });
        writeln!(out, "  relocation offset {entry}: {text}")?;
    }
    Ok(())
}

pub fn print_tables(
    out: &mut impl Write,
    record: &Record,
    without_results: bool,
) -> io::Result<()> {
    print_words(out, "constants", &words(record.constants))?;
    print_version(out, record.version)?;
    for (offset, line) in record.source_pairs() {
        writeln!(out, "  source     offset {offset} line {line}")?;
    }
    if record.number > 0 {
        return Ok(());
    }
    writeln!(out, "  entries   {}", spaced(record.entries()))?;
    if without_results {
        writeln!(out, "  results    all taken as 0; --results gives others")?;
    }
    Ok(())
}

/// Prints the version table as text and as bytes, and what its issue means for unsigned results (02,
/// K11); a malformed word names none.
fn print_version(out: &mut impl Write, version: &[u8]) -> io::Result<()> {
    if !version.is_empty() {
        writeln!(out, "  version    {}  {}", quoted(version), hex(version))?;
    }
    let Some(wraps) = wraps(version) else { return Ok(()) };
    let verb = if wraps { "wrap" } else { "do not wrap" };
    writeln!(out, "  issue      {}: unsigned add, subtract and multiply {verb}", issue(version))
}

/// Names the issue as the papers do: 3/- for " 3/-" and "03/-".
fn issue(version: &[u8]) -> String {
    match version.get(..4) {
        Some([b' ' | b'0', name @ ..] | name) => String::from_utf8_lossy(name).into_owned(),
        None => "none".to_string(),
    }
}

/// Prints words in rows, each with the index of its first.
fn print_words(out: &mut impl Write, name: &str, words: &[u32]) -> io::Result<()> {
    for (i, row) in words.chunks(WORDS_IN_ROW).enumerate() {
        let name = if i == 0 { name } else { "" };
        writeln!(out, "  {name:<10} {:>4}:{}", i * WORDS_IN_ROW, spaced(row))?;
    }
    Ok(())
}
