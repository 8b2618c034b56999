//! Code cut into instructions, region by region, and where control may go from each.

use crate::cut::{cut, Placed};
use crate::instruction::{Fault, Instruction};
use crate::record::{Record, Region};

pub struct Layout<'a> {
    pub code: &'a [u8],
    pub regions: Vec<Region>,
    /// Instructions by rising place, each with the index of its region.
    instructions: Vec<(Placed, usize)>,
    /// For each code byte the index of the instruction that starts there.
    starts: Vec<Option<u16>>,
}

impl<'a> Layout<'a> {
    /// Cuts every region end to end from its entry. The first bad instruction by offset decides
    /// between 10 and 11.
    pub fn new(record: &Record<'a>) -> Result<Layout<'a>, u32> {
        let code = record.code;
        let regions = record.regions();
        let mut instructions = Vec::new();
        let mut starts = vec![None; code.len()];
        for (index, &region) in regions.iter().enumerate() {
            for placed in cut(code, region) {
                let placed = placed.map_err(|fault| match fault {
                    Fault::Unserved => 10u32,
                    Fault::Past => 11,
                })?;
                starts[placed.place] = Some(instructions.len() as u16);
                instructions.push((placed, index));
            }
        }
        Ok(Layout { code, regions, instructions, starts })
    }

    pub fn instructions(&self) -> impl Iterator<Item = (&Placed, &Region)> {
        self.instructions.iter().map(|(placed, index)| (placed, &self.regions[*index]))
    }

    /// Finds the instruction that starts at a place, and its region.
    pub fn at(&self, place: usize) -> Option<(&Placed, &Region)> {
        let index = (*self.starts.get(place)?)?;
        let (placed, region) = &self.instructions[index as usize];
        Some((placed, &self.regions[*region]))
    }

    pub fn is_start_in(&self, place: usize, region: &Region) -> bool {
        self.at(place).is_some_and(|(_, found)| found.procedure == region.procedure)
    }

    /// Counts the parameter words of a procedure: those of the ENTER that it begins with.
    pub fn parameter_words(&self, region: &Region) -> usize {
        match self.at(region.start) {
            Some((Placed { instruction: Instruction::Enter { parameters, .. }, .. }, _)) => {
                *parameters as usize
            }
            _ => 0,
        }
    }
}

impl Placed {
    /// Where control may go, without the ways that only the stack knows: NEXT's way round and
    /// LEAVE. A place before the code is given as one past any code.
    pub fn successors(&self, code: &[u8]) -> Vec<usize> {
        use Instruction::*;
        match self.instruction {
            Rtn | Leave => vec![],
            Jump(target) => vec![place(target)],
            JumpC(target) | JumpT(target) | JumpF(target) | Iter { exit: target } => {
                vec![self.next, place(target)]
            }
            Switch(table) => table.targets(code).map(|target| target as usize).collect(),
            _ => vec![self.next],
        }
    }
}

/// A jump target as an index.
pub fn place(target: i32) -> usize {
    usize::try_from(target).unwrap_or(usize::MAX)
}
