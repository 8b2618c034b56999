//! The proved library, called through its C interface (include/icode.h).

// Some of the calls are for the tests alone.
#[allow(dead_code, unsafe_code)]
#[path = "../../include/icode.rs"]
mod archive;

/// The number of an instruction that is not served.
pub const UNSERVED: u32 = 10;
/// Words of a machine's state, and the places of some of them.
pub const STATE_WORDS: usize = 7;
pub const PC: usize = 0;
pub const FP: usize = 1;
pub const GP: usize = 3;
pub const HEIGHT: usize = 4;
pub const CALLS: usize = 5;
pub const MODULE: usize = 6;
/// Words of an outcome: end, place, steps and the module of the place.
pub const OUTCOME_WORDS: usize = 4;

/// Longer than the report of any run file.
const REPORT_BYTES: usize = 32_768;

/// A source line: its first and last code offset, and its number.
#[derive(Clone, Copy)]
pub struct Span {
    pub first: usize,
    pub last: usize,
    pub line: u32,
}

/// A mended record, and the byte places of the dropped words in the old one, rising.
pub struct Mended {
    pub record: Vec<u8>,
    pub places: Vec<usize>,
}

/// What the library reads of an instruction.
pub struct Decoded {
    pub double: bool,
    pub operand: u32,
    pub second: u32,
    pub len: usize,
}

/// 0 for a sound record, else the number that refuses it, 1 to 7.
pub use archive::record_number;

/// 0 where a module of a set is accepted, else the number that refuses it. A workspace of zeros
/// stays so where it is refused.
pub use archive::set_check;

/// Writes copy, memory and state, and answers 0; else the number that refuses the set.
pub use archive::set_load;

/// Runs from a state for at most a budget, and answers 0.
pub use archive::set_run;

/// Looks up the whole source line of a code offset; none outside the code, or where the record is
/// refused.
pub fn line_span(record: &[u8], offset: usize) -> Option<Span> {
    let mut span = [0; 4];
    let number = archive::line_span(record, u32::try_from(offset).ok()?, &mut span);
    let [outside, first, last, line] = span;
    let found = number == 0 && outside == 0;
    found.then_some(Span { first: first as usize, last: last as usize, line })
}

/// Mends a record, or answers its number, 1 to 3. The new one is never longer.
pub fn mend(record: &[u8]) -> Result<Mended, u32> {
    let mut out = vec![0; record.len()];
    let mut places = vec![0; record.len() / 4];
    let mut counts = [0; 2];
    let number = archive::mend(record, &mut out, &mut places, &mut counts);
    if number != 0 {
        return Err(number);
    }
    let [bytes, words] = counts.map(|count| count as usize);
    out.truncate(bytes);
    places.truncate(words);
    Ok(Mended { record: out, places: places.into_iter().map(|at| at as usize).collect() })
}

/// Checks, loads and runs a run file, and answers its page.
pub fn report(run_file: &[u8]) -> Vec<u8> {
    let mut report = vec![0; REPORT_BYTES];
    let written = archive::report(run_file, &mut report);
    report.truncate(written);
    report
}

/// Decodes the instruction at a place, which has to end at or before the limit; else 10 or 11.
pub fn decode(code: &[u8], limit: usize, at: usize) -> Result<Decoded, u32> {
    let mut out = [0; 5];
    let number = archive::decode(code, limit, at, &mut out);
    if number != 0 {
        return Err(number);
    }
    let [_, mode, operand, second, len] = out;
    Ok(Decoded { double: mode != 0, operand, second, len: len as usize })
}
