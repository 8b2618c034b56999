//! The calls over sets of modules (02, K1). C lends a set as three slices: records and results
//! lists one after another, and a directory with a row for each module.

use super::{first_number, registers_of, words_of, STATE_WORDS};
use crate::check::check_set;
use crate::machine::{load_set, run_set};
use crate::set::Lent;

/// Words of a directory's row: SID, bytes of the record, bytes of the results list, halfwords of
/// the workspace.
pub const ROW: usize = 4;

/// Words of a state, with the module last, and of an outcome (end, at, steps, module).
pub const SET_STATE_WORDS: usize = STATE_WORDS + 1;
pub const SET_OUTCOME_WORDS: usize = 4;

pub type SetCheck =
    fn(records: &[u8], results: &[u8], directory: &[u32], own: u32, workspace: &mut [u16]) -> u32;
pub type SetLoad = fn(
    records: &[u8],
    directory: &[u32],
    parameters: &[u32],
    copy: &mut [u8],
    memory: &mut [u32],
    stack: &mut [u32],
    state: &mut [u32],
) -> u32;
/// The copy is lent as mutable, though it is not written, so that a test may look whether it was.
pub type SetRun = fn(
    records: &[u8],
    directory: &[u32],
    budget: u32,
    copy: &mut [u8],
    memory: &mut [u32],
    stack: &mut [u32],
    state: &mut [u32],
    outcome: &mut [u32],
) -> u32;

/// Takes a set apart. A share that its slice does not hold is cut off at the slice's end.
pub fn lent<'a>(records: &'a [u8], results: &'a [u8], directory: &[u32]) -> Vec<Lent<'a>> {
    let (mut records, mut results) = (records, results);
    let share = |rest: &mut &'a [u8], length: u32| {
        let (share, behind) = rest.split_at(rest.len().min(length as usize));
        *rest = behind;
        share
    };
    let module = |row: &[u32]| Lent {
        sid: row[0],
        record: share(&mut records, row[1]),
        results: share(&mut results, row[2]),
    };
    directory.chunks_exact(ROW).map(module).collect()
}

pub fn check(
    records: &[u8],
    results: &[u8],
    directory: &[u32],
    own: u32,
    workspace: &mut [u16],
) -> u32 {
    check_set(&lent(records, results, directory), own as usize, workspace)
}

pub fn load(
    records: &[u8],
    directory: &[u32],
    parameters: &[u32],
    copy: &mut [u8],
    memory: &mut [u32],
    stack: &mut [u32],
    state: &mut [u32],
) -> u32 {
    let lent = lent(records, &[], directory);
    let Ok(state) = <&mut [u32; SET_STATE_WORDS]>::try_from(state) else {
        return first_number(&lent, 8);
    };
    match load_set(&lent, parameters, copy, memory, stack) {
        Ok(registers) => {
            *state = joined(words_of(registers));
            0
        }
        Err(number) => number,
    }
}

#[allow(clippy::too_many_arguments)]
pub fn run(
    records: &[u8],
    directory: &[u32],
    budget: u32,
    copy: &mut [u8],
    memory: &mut [u32],
    stack: &mut [u32],
    state: &mut [u32],
    outcome: &mut [u32],
) -> u32 {
    let lent = lent(records, &[], directory);
    let lengths = (
        <&mut [u32; SET_STATE_WORDS]>::try_from(state),
        outcome.first_chunk_mut::<SET_OUTCOME_WORDS>(),
    );
    let (Ok(state), Some(outcome)) = lengths else {
        return first_number(&lent, 24);
    };
    let [words @ .., module] = *state;
    let mut registers = registers_of(words, module);
    match run_set(&lent, budget, copy, memory, stack, &mut registers) {
        Ok(ended) => {
            *state = joined(words_of(registers));
            *outcome = [ended.end, ended.at, ended.steps, ended.module];
            0
        }
        Err(number) => number,
    }
}

fn joined((words, module): ([u32; STATE_WORDS], u32)) -> [u32; SET_STATE_WORDS] {
    let [pc, fp, mp, gp, height, calls] = words;
    [pc, fp, mp, gp, height, calls, module]
}
