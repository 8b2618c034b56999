//! The C interface as safe Rust functions, so that the reference and the proved library can be
//! called alike.

mod set;

use crate::instruction::{self, Fault};
use crate::machine::{self, Registers};
use crate::mend::{mended, Mended};
use crate::parts::{parts, PARTS};
use crate::record::{Record, Span};
use crate::set::{Lent, Set};
use crate::{check, record, report};

pub use set::{lent, SetCheck, SetLoad, SetRun, ROW, SET_OUTCOME_WORDS, SET_STATE_WORDS};

/// Words of a state (pc, fp, mp, gp, height, calls), of an outcome (end, at, steps), of a span
/// (1 outside the code or 0, first, last, line), and of the counts of mending (bytes of the new
/// record, words dropped).
pub const STATE_WORDS: usize = 6;
pub const OUTCOME_WORDS: usize = 3;
pub const SPAN_WORDS: usize = 4;
pub const MEND_COUNTS: usize = 2;

/// The calls of one implementation.
#[derive(Clone, Copy)]
pub struct Interface {
    pub number: fn(record: &[u8]) -> u32,
    /// number * 2^32 + line
    pub line: fn(record: &[u8], offset: u32) -> u64,
    pub span: fn(record: &[u8], offset: u32, span: &mut [u32]) -> u32,
    pub mend: Mend,
    pub check: fn(record: &[u8], results: &[u8], workspace: &mut [u16]) -> u32,
    pub report: fn(run_file: &[u8], out: &mut [u8]) -> usize,
    pub decode: fn(code: &[u8], limit: usize, at: usize, out: &mut [u32]) -> u32,
    pub load: Load,
    pub run: Run,
    pub set_check: SetCheck,
    pub set_load: SetLoad,
    pub set_run: SetRun,
}

type Mend = fn(record: &[u8], out: &mut [u8], places: &mut [u32], counts: &mut [u32]) -> u32;
type Load = fn(
    record: &[u8],
    parameters: &[u32],
    memory: &mut [u32],
    stack: &mut [u32],
    state: &mut [u32],
) -> u32;
type Run = fn(
    record: &[u8],
    budget: u32,
    memory: &mut [u32],
    stack: &mut [u32],
    state: &mut [u32],
    outcome: &mut [u32],
) -> u32;

/// The reference.
pub const REFERENCE: Interface = Interface {
    number: record::number,
    line,
    span,
    mend,
    check: check::check,
    report: report::report,
    decode,
    load,
    run,
    set_check: set::check,
    set_load: set::load,
    set_run: set::run,
};

fn line(record: &[u8], offset: u32) -> u64 {
    match Record::read(record) {
        Ok(record) => u64::from(record.span(offset).line()),
        Err(number) => u64::from(number) << 32,
    }
}

fn span(record: &[u8], offset: u32, span: &mut [u32]) -> u32 {
    let record = match Record::read(record) {
        Ok(record) => record,
        Err(number) => return number,
    };
    let Some(span) = span.first_chunk_mut::<SPAN_WORDS>() else { return 8 };
    *span = match record.span(offset) {
        Span::Found { first, last, line } => [0, first, last, line],
        Span::Outside => [1, 0, 0, 0],
    };
    0
}

fn mend(record: &[u8], out: &mut [u8], places: &mut [u32], counts: &mut [u32]) -> u32 {
    let Mended { record, dropped } = match mended(record) {
        Ok(mended) => mended,
        Err(number) => return number,
    };
    let out = out.get_mut(..record.len());
    let places = places.get_mut(..dropped.len());
    let counts = counts.first_chunk_mut::<MEND_COUNTS>();
    let (Some(out), Some(places), Some(counts)) = (out, places, counts) else { return 8 };
    out.copy_from_slice(&record);
    places.copy_from_slice(&dropped);
    *counts = [record.len() as u32, dropped.len() as u32];
    0
}

/// Length of a SWITCH_X with 65,535 ranges.
const LONGEST_INSTRUCTION: usize = 7 + 10 * 0xffff;

fn decode(code: &[u8], limit: usize, at: usize, out: &mut [u32]) -> u32 {
    let Ok(out) = <&mut [u32; PARTS]>::try_from(out) else { return 8 };
    let (decoded, place) = if limit <= code.len() {
        (instruction::decode(code, limit, at), at)
    } else {
        // Bytes past the code count as 0: the instruction alone, with zeros behind it.
        let mut alone = vec![0; limit.saturating_sub(at).min(LONGEST_INSTRUCTION)];
        let present = code.get(at..).unwrap_or(&[]);
        alone.iter_mut().zip(present).for_each(|(to, from)| *to = *from);
        (instruction::decode(&alone, alone.len(), 0), 0)
    };
    match decoded {
        Ok((instruction, next)) => {
            *out = parts(instruction, place, next);
            0
        }
        Err(Fault::Unserved) => 10,
        Err(Fault::Past) => 11,
    }
}

fn load(
    record: &[u8],
    parameters: &[u32],
    memory: &mut [u32],
    stack: &mut [u32],
    state: &mut [u32],
) -> u32 {
    let Ok(state) = <&mut [u32; STATE_WORDS]>::try_from(state) else {
        return first_number(&[Lent::main(record, &[])], 8);
    };
    match machine::load(record, parameters, memory, stack) {
        Ok(registers) => {
            (*state, _) = words_of(registers);
            0
        }
        Err(number) => number,
    }
}

fn run(
    record: &[u8],
    budget: u32,
    memory: &mut [u32],
    stack: &mut [u32],
    state: &mut [u32],
    outcome: &mut [u32],
) -> u32 {
    let lengths = (<&mut [u32; STATE_WORDS]>::try_from(state), outcome);
    let (Ok(state), [end, at, steps]) = lengths else {
        return first_number(&[Lent::main(record, &[])], 24);
    };
    let mut registers = registers_of(*state, 0);
    match machine::run(record, budget, memory, stack, &mut registers) {
        Ok(ended) => {
            (*state, _) = words_of(registers);
            (*end, *at, *steps) = (ended.end, ended.at, ended.steps);
            0
        }
        Err(number) => number,
    }
}

/// Gives the number of the modules' own tests, or `number` where there is none.
fn first_number(lent: &[Lent], number: u32) -> u32 {
    Set::read(lent).err().unwrap_or(number)
}

/// Gives a state's words, and its module.
fn words_of(registers: Registers) -> ([u32; STATE_WORDS], u32) {
    let Registers { pc, fp, mp, gp, height, calls, module } = registers;
    ([pc, fp, mp, gp, height, calls], module)
}

fn registers_of(state: [u32; STATE_WORDS], module: u32) -> Registers {
    let [pc, fp, mp, gp, height, calls] = state;
    Registers { pc, fp, mp, gp, height, calls, module }
}
