//! The check of code before it runs (01, "The stack picture" and "Numbers handed back"; 02, K1),
//! of one module of a set.
//!
//! Written over whole slot lists, to be compared with: clear before fast.

mod layout;
mod stack_map;

use crate::cut::Placed;
use crate::instruction::Instruction;
use crate::record::{Record, Region};
use crate::set::{Lent, Module, Set};
use layout::Layout;

pub use stack_map::{Slot, StackMaps};

/// Halfwords of workspace for each code byte.
pub const STRIDE: usize = 4;

/// Checks a record by itself.
pub fn check(record: &[u8], results: &[u8], workspace: &mut [u16]) -> u32 {
    check_set(&[Lent::main(record, results)], 0, workspace)
}

/// Checks module `own`: 0, or the first number of 1 to 3, 5 to 7, 17, 18, 8 to 15 that
/// applies. Those before 10 leave the workspace as it was. A module that is not there is given 8:
/// no workspace is its own.
pub fn check_set(lent: &[Lent], own: usize, workspace: &mut [u16]) -> u32 {
    let set = match Set::read(lent) {
        Ok(set) => set,
        Err(number) => return number,
    };
    let size = set.modules.get(own).map(|module| STRIDE * module.record.code.len());
    let Some(workspace) = size.and_then(|size| workspace.get_mut(..size)) else { return 8 };
    if !set.modules.iter().all(results_sound) {
        return 9;
    }
    workspace.fill(0);
    match examine(&set, own) {
        Ok(maps) => {
            write(&maps, workspace);
            0
        }
        Err(number) => number,
    }
}

/// Finds the stack maps of the code of module `own`, or the lowest number of 10 to 15. The results
/// lists are sound.
pub fn examine(set: &Set, own: usize) -> Result<StackMaps, u32> {
    let layouts = set.modules.iter().map(|module| Layout::new(&module.record));
    // The first module with a bad instruction decides between 10 and 11.
    let layouts = layouts.collect::<Result<Vec<Layout>, u32>>()?;
    let all = |rule: &dyn Fn(&Module, &Layout, &Placed, &Region) -> bool| {
        set.modules.iter().zip(&layouts).all(|(module, layout)| {
            layout.instructions().all(|(placed, region)| rule(module, layout, placed, region))
        })
    };
    if !all(&|_, layout, placed, region| successors_start(layout, placed, region)) {
        return Err(12);
    }
    if !all(&|_, _, placed, region| enter_stands(placed, region)) {
        return Err(13);
    }
    if !all(&|module, _, placed, _| callee_exists(set, module, placed)) {
        return Err(14);
    }
    stack_map::infer(set, &layouts, own).ok_or(15)
}

/// One byte, 0 to 2, for each procedure; procedure 0 has 0 (9).
fn results_sound(module: &Module) -> bool {
    let Module { record, results, .. } = module;
    results.len() == record.procedures as usize
        && results[0] == 0
        && results.iter().all(|&count| count <= 2)
}

/// Every successor and every switch label is an instruction start in the region (12).
fn successors_start(layout: &Layout, placed: &Placed, region: &Region) -> bool {
    let is_start = |target: usize| layout.is_start_in(target, region);
    let label = match placed.instruction {
        Instruction::Switch(table) => Some(table.exit(layout.code) as usize),
        _ => None,
    };
    placed.successors(layout.code).into_iter().all(is_start) && label.is_none_or(is_start)
}

/// ENTER begins procedures 1 and up, may begin procedure 0 without parameters, and stands
/// nowhere else (13).
fn enter_stands(placed: &Placed, region: &Region) -> bool {
    let first = placed.place == region.start;
    match placed.instruction {
        Instruction::Enter { parameters, .. } => first && (region.procedure > 0 || parameters == 0),
        _ => !first || region.procedure == 0,
    }
}

/// The callee is one of the entries, of its own module, and not 0 (14).
fn callee_exists(set: &Set, module: &Module, placed: &Placed) -> bool {
    let exists = |record: &Record, procedure| (1..record.procedures).contains(&procedure);
    match placed.instruction {
        Instruction::Call(procedure) => exists(&module.record, procedure),
        Instruction::CallExternal(library, procedure) => {
            exists(&set.modules[module.library(library)].record, procedure)
        }
        _ => true,
    }
}

/// For each code byte: height plus 1, 1 plus the topmost label's origin, 0, 0.
fn write(maps: &StackMaps, workspace: &mut [u16]) {
    for (place, entry) in workspace.chunks_exact_mut(STRIDE).enumerate() {
        if let Some(slots) = maps.at(place) {
            entry[0] = slots.len() as u16 + 1;
            entry[1] = topmost_label(slots).map_or(0, |origin| origin + 1);
        }
    }
}

/// Origin of the topmost label of a slot list (bottom first).
pub fn topmost_label(slots: &[Slot]) -> Option<u16> {
    slots.iter().rev().find_map(|slot| match *slot {
        Slot::Word => None,
        Slot::Iter(origin) | Slot::Switch(origin) => Some(origin),
    })
}
