//! The code of a sound record, cut into instructions.

use crate::instruction::Instruction;
use crate::record::Record;
use std::ops::Range;

/// A procedure's code.
pub struct Procedure {
    pub number: usize,
    pub region: Range<usize>,
    /// Up to the first that cannot be decoded.
    pub instructions: Vec<Instruction>,
    /// Where that one stands, and its number: 10 or 11.
    pub bad: Option<(usize, u32)>,
}

impl Procedure {
    /// Cuts a region end to end from its entry.
    fn cut(code: &[u8], number: usize, region: Range<usize>) -> Procedure {
        let mut instructions = Vec::new();
        let mut at = region.start;
        while at < region.end {
            match Instruction::decode(code, region.end, at) {
                Ok(instruction) => {
                    at = instruction.end();
                    instructions.push(instruction);
                }
                Err(refused) => {
                    let bad = Some((at, refused));
                    return Procedure { number, region, instructions, bad };
                }
            }
        }
        Procedure { number, region, instructions, bad: None }
    }

    /// Tells whether one of its instructions begins at an offset.
    pub fn has_start(&self, offset: i64) -> bool {
        let offset = usize::try_from(offset).unwrap_or(usize::MAX);
        self.instructions.binary_search_by_key(&offset, |instruction| instruction.at).is_ok()
    }
}

/// Cuts the procedures of a sound record, in the order of their code: 1, 2, .. and then 0.
pub fn procedures(record: &Record) -> Vec<Procedure> {
    let (code, entries) = (record.code, record.entries());
    let count = entries.len();
    let order = (1..count).chain([0]);
    let cut = |number: usize| {
        let end = if number == 0 { code.len() } else { entries[(number + 1) % count] };
        Procedure::cut(code, number, entries[number]..end)
    };
    order.map(cut).collect()
}
