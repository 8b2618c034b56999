//! Code cut end to end into instructions (01: "Regions are cut end to end into instructions from
//! each entry").

use crate::instruction::{decode, Fault, Instruction};
use crate::record::{Record, Region};

#[derive(Clone, Copy, Debug)]
pub struct Placed {
    pub place: usize,
    /// The place after the instruction.
    pub next: usize,
    pub instruction: Instruction,
}

/// Gives the instructions of a region, up to its end or its first bad one, whose fault comes last.
pub fn cut(code: &[u8], region: Region) -> impl Iterator<Item = Result<Placed, Fault>> + '_ {
    let mut place = region.start;
    std::iter::from_fn(move || {
        if place >= region.end {
            return None;
        }
        let decoded = decode(code, region.end, place).map(|(instruction, next)| Placed {
            place,
            next,
            instruction,
        });
        place = decoded.map_or(region.end, |placed| placed.next);
        Some(decoded)
    })
}

/// Finds the library bytes of all external instructions that are cut, region by region.
pub fn library_bytes(record: &Record) -> Vec<usize> {
    let regions = record.regions().into_iter();
    let instructions = regions.flat_map(|region| cut(record.code, region).flatten());
    let external = instructions.filter(|placed| placed.instruction.is_external());
    external.map(|placed| placed.place + 1).collect()
}
