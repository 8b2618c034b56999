//! The record or run file that a text asks for.

use super::encode::Place;
use super::layout::{item_len, Layout, Placed};
use super::program::{Item, Lined, Program, RunHead, TextFault};
use crate::bytes::word_bytes;
use crate::run_file::BEGINNING;
use crate::sheet::Operands;
use std::collections::BTreeMap;

/// What a text makes.
pub struct Built {
    /// The record, or the run file.
    pub bytes: Vec<u8>,
    pub is_run_file: bool,
    pub results: Vec<u8>,
    /// The lines of the text by the code offsets of their instructions.
    pub lines: BTreeMap<usize, usize>,
    /// The lines of .procedure by the code offsets at which these begin.
    pub procedure_lines: BTreeMap<usize, usize>,
}

pub fn build(program: &Program) -> Result<Built, Vec<TextFault>> {
    let layout = Layout::of(program)?;
    let mut lines = BTreeMap::new();
    let code = encode(&layout, &mut lines)?;
    let zeros = || vec![0; layout.procedures.len()];
    let results = program.results.clone().unwrap_or_else(zeros);
    let record = record(program, &layout, &code);
    let head = head(&program.run, &results)
        .map_err(|text| vec![TextFault { line: program.procedures[0].line, text }])?;
    let is_run_file = head.is_some();
    let bytes = head.unwrap_or_default().into_iter().chain(record).collect();
    let procedures = layout.procedures.iter();
    let procedure_lines = procedures.map(|placed| (placed.entry, placed.procedure.line)).collect();
    Ok(Built { bytes, is_run_file, results, lines, procedure_lines })
}

/// Makes the code: the entries, then the procedures. Notes the lines of the instructions.
fn encode(layout: &Layout, lines: &mut BTreeMap<usize, usize>) -> Result<Vec<u8>, Vec<TextFault>> {
    let mut code = entries(layout)?;
    let mut faults = Vec::new();
    for procedure in &layout.procedures {
        let mut at = procedure.entry;
        for Lined { line, item } in &procedure.procedure.items {
            let place = Place { layout, procedure, at };
            match place.item_bytes(item) {
                Ok(bytes) => code.extend(bytes),
                Err((own_line, text)) => {
                    faults.push(TextFault { line: own_line.unwrap_or(*line), text });
                }
            }
            lines.insert(at, *line);
            at += item_len(item);
        }
    }
    if faults.is_empty() {
        Ok(code)
    } else {
        Err(faults)
    }
}

/// Makes the halfword of each procedure from 0 on.
fn entries(layout: &Layout) -> Result<Vec<u8>, Vec<TextFault>> {
    let mut entries = vec![0; 2 * layout.procedures.len()];
    for procedure in &layout.procedures {
        let (number, line) = (procedure.procedure.number, procedure.procedure.line);
        let Ok(entry) = u16::try_from(procedure.entry) else {
            let text = "the code before it is longer than 65,535 bytes".to_string();
            return Err(vec![TextFault { line, text }]);
        };
        entries[2 * number..][..2].copy_from_slice(&entry.to_be_bytes());
    }
    Ok(entries)
}

fn record(program: &Program, layout: &Layout, code: &[u8]) -> Vec<u8> {
    let pair = |(&offset, &line): (&usize, &u32)| [offset as u32, line];
    let source: Vec<u32> = layout.source.iter().flat_map(pair).collect();
    let Program { globals, imports, constants, version, .. } = program;
    let relocation = program.relocation.clone().unwrap_or_else(|| library_bytes(layout));
    let sizes = [imports.len(), code.len(), constants.len(), relocation.len()];
    let [imports_size, code_size, constants_size, relocation_size] = sizes.map(|len| len as u32);
    let [version_size, source_size] = [version.len(), source.len()].map(|len| len as u32);
    let header = [
        imports_size,
        code_size,
        globals.unwrap_or(0),
        constants_size,
        relocation_size,
        version_size,
        source_size,
    ];
    let bytes = |words: &[u32]| word_bytes(words.to_vec());
    let behind = [bytes(constants), bytes(&relocation), bytes(version), bytes(&source)].concat();
    [&bytes(&header), &bytes(imports), code, &behind].concat()
}

/// Finds the library byte of every external instruction, in the order of the code.
fn library_bytes(layout: &Layout) -> Vec<u32> {
    let mut found = Vec::new();
    for Placed { procedure, entry, .. } in &layout.procedures {
        let mut at = *entry;
        for Lined { item, .. } in &procedure.items {
            if is_external(item) {
                found.push(at as u32 + 1);
            }
            at += item_len(item);
        }
    }
    found
}

fn is_external(item: &Item) -> bool {
    match item {
        Item::Statement(statement) => statement.form.operands() == Operands::External,
        _ => false,
    }
}

/// Makes the head of a run file; none for a text that names nothing of one.
fn head(run: &RunHead, results: &[u8]) -> Result<Option<Vec<u8>>, String> {
    let RunHead { parameters, budget, memory, stack } = run;
    if parameters.is_none() && budget.is_none() && memory.is_none() && stack.is_none() {
        return Ok(None);
    }
    let (Some(budget), Some(memory), Some(stack)) = (budget, memory, stack) else {
        return Err("a run file has .budget, .memory and .stack, a record none of them".to_string());
    };
    let parameters = parameters.as_deref().unwrap_or_default();
    let mut head = BEGINNING.to_vec();
    head.push(count_byte(results.len(), "results")?);
    head.extend(results);
    head.push(count_byte(parameters.len(), "parameters")?);
    head.extend(word_bytes(parameters.to_vec()));
    head.extend(budget.to_be_bytes());
    head.extend(memory.to_be_bytes());
    head.extend(stack.to_be_bytes());
    Ok(Some(head))
}

fn count_byte(count: usize, what: &str) -> Result<u8, String> {
    u8::try_from(count).map_err(|_| format!("a run file has at most 255 {what}, found {count}"))
}
