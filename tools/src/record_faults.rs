//! What stands behind the numbers 1 to 9 of a record: which size, pair, entry or result it is.

use crate::bytes::{counted, halfword, words};
use crate::record::{sizes, total_bytes, Record, KINDS};
use crate::run_file::RunFile;

const MAX_STACK_WORDS: u16 = 1_024;
const MAX_PROCEDURES: u16 = 256;
const MAX_RESULTS: u8 = 2;

/// Says why the sizes of a record do not fit: 1 to 3.
pub fn of_sizes(record: &[u8]) -> String {
    let Some(sizes) = sizes(record) else {
        return format!("it has {}", counted(record.len(), "byte", "bytes"));
    };
    match sizes.iter().zip(&KINDS).find(|(&size, kind)| size > kind.max) {
        Some((size, kind)) => format!("{} {size}, at most {} {}", kind.name, kind.max, kind.unit),
        None => {
            format!("its parts come to {} bytes, it has {}", total_bytes(&sizes), record.len())
        }
    }
}

/// Says what is wrong with parts that stand where the sizes say: 5 to 7.
pub fn of_parts(record: &Record) -> String {
    match record.number {
        5 => {
            let first = String::from_utf8_lossy(&record.version[..4]).into_owned();
            format!("it is {first:?}, and should be such as \" 3/-\" or \"12/B\"")
        }
        6 => of_source(record),
        _ => of_entries(record.code),
    }
}

/// Finds the first pair that is not as it should be (6).
fn of_source(record: &Record) -> String {
    let (len, size) = (record.source.len() / 4, record.code.len());
    if len % 2 == 1 {
        return format!("it has {}, and every pair has two", counted(len, "word", "words"));
    }
    let pairs = record.source_pairs();
    let offsets: Vec<u32> = pairs.iter().map(|&(offset, _)| offset).collect();
    let falls = |i: &usize| *i > 0 && offsets[*i] <= offsets[i - 1];
    match (0..offsets.len()).find(|i| offsets[*i] as usize >= size || falls(i)) {
        Some(i) if falls(&i) => {
            format!("pair {i}: offset {} is not above {}", offsets[i], offsets[i - 1])
        }
        Some(i) => format!("pair {i}: offset {} is not below {size}", offsets[i]),
        None => String::new(),
    }
}

/// Finds the first entry that is not as it should be (7).
fn of_entries(code: &[u8]) -> String {
    let entry = |i: usize| (2 * i + 1 < code.len()).then(|| halfword(code, 2 * i));
    let count = match (entry(0), entry(1)) {
        (Some(2), _) => 1,
        (_, Some(first)) if first % 2 != 0 || !(4..=2 * MAX_PROCEDURES).contains(&first) => {
            return format!("entry 1 is {first}");
        }
        (_, Some(first)) => usize::from(first / 2),
        _ => return format!("the code has {}", counted(code.len(), "byte", "bytes")),
    };
    let mut last = None;
    for i in (1..count).chain([0]) {
        let Some(here) = entry(i) else { break };
        if usize::from(here) >= code.len() {
            return format!("entry {i} is {here}, not below {}", code.len());
        }
        if let Some(last) = last.filter(|&last| here <= last) {
            return format!("entry {i} is {here}, not above {last}");
        }
        last = Some(here);
    }
    String::new()
}

/// Finds the first result that is not as it should be (9).
pub fn of_results(results: &[u8], procedures: usize) -> String {
    if results.len() != procedures {
        let given = counted(results.len(), "number", "numbers");
        return format!("{given} for {}", counted(procedures, "procedure", "procedures"));
    }
    let wrong = |&(i, &count): &(usize, &u8)| count > if i == 0 { 0 } else { MAX_RESULTS };
    match results.iter().enumerate().find(wrong) {
        Some((0, count)) => format!("procedure 0 has {count}, and leaves none"),
        Some((i, count)) => format!("procedure {i} has {count}, at most {MAX_RESULTS}"),
        None => String::new(),
    }
}

/// Names every cause of the load's 8 that holds, of a set with the main module first.
pub fn of_load(records: &[Record], file: &RunFile) -> String {
    let (parameters, memory, stack) = (file.parameters.len(), file.memory_words, file.stack_words);
    let globals = records[0].globals as usize;
    let least: usize = records.iter().map(Record::loaded_words).sum();
    let mut causes = Vec::new();
    if parameters > globals {
        let given = counted(parameters, "parameter", "parameters");
        causes.push(format!("{given} for {}", counted(globals, "global", "globals")));
    }
    if usize::from(memory) < least {
        let sum = match records {
            [main] => format!("3+{globals}+{} = {least}", words(main.constants).len()),
            _ => format!("{least}, the 3+g+c of all modules"),
        };
        causes.push(format!("memory {memory} words, under {sum}"));
    }
    if stack > MAX_STACK_WORDS {
        causes.push(format!("stack {stack} words, over 1,024"));
    }
    causes.join("; ")
}
