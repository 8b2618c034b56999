//! The stack machine: load, which states fit, and run (01, "Memory and steps"; 02, K1), over a set
//! of modules.
//!
//! Also the benchmark's yardstick: a direct interpreter with bounds-checked accesses.

mod control;
mod memory;
mod step;
mod stop;

use crate::bytes;
use crate::record::{Split, HEADER_WORDS, LARGEST};
use crate::set::{Lent, Module, Set};
use step::Machine;

pub use stop::Stop;

pub const LARGEST_MEMORY: usize = 16_384;
pub const LARGEST_STACK: usize = 1_024;
pub const MOST_CALLS: u32 = 64;

/// The end of a run whose budget is done.
pub const SPENT: u32 = 1;

#[derive(Clone, Copy, Debug, Default, PartialEq, Eq)]
pub struct Registers {
    pub pc: u32,
    pub fp: u32,
    pub mp: u32,
    pub gp: u32,
    /// Words on the expression stack.
    pub height: u32,
    /// Active calls.
    pub calls: u32,
    /// The module that PC counts in.
    pub module: u32,
}

/// How a run ended: 0 finished, 1 spent, or the trap; at which offset of which module; after how
/// many steps.
#[derive(Clone, Copy, Debug, PartialEq, Eq)]
pub struct Outcome {
    pub end: u32,
    pub at: u32,
    pub steps: u32,
    pub module: u32,
}

/// Loads a record by itself, whose copy is its code.
pub fn load(
    record: &[u8],
    parameters: &[u32],
    memory: &mut [u32],
    stack: &[u32],
) -> Result<Registers, u32> {
    let mut copy = [0; LARGEST[1] as usize];
    load_set(&[Lent::main(record, &[])], parameters, &mut copy, memory, stack)
}

/// Makes copy and memory ready to run; the stack is only measured. Refused (1 to 3, 5 to 7, 17,
/// 18, 8), it changes nothing.
pub fn load_set(
    lent: &[Lent],
    parameters: &[u32],
    copy: &mut [u8],
    memory: &mut [u32],
    stack: &[u32],
) -> Result<Registers, u32> {
    let set = Set::read(lent)?;
    let main = &set.modules[0];
    if parameters.len() > main.record.globals as usize || !sizes_fit(&set, copy, memory, stack) {
        return Err(8);
    }
    copy[..set.copy_size()].copy_from_slice(&set.copy());
    memory.fill(0);
    for (number, module) in set.modules.iter().enumerate() {
        let frame = &mut memory[module.frame_at() as usize..module.end() as usize];
        frame[..HEADER_WORDS as usize].copy_from_slice(&module.header(number));
        let constants = frame.iter_mut().rev().zip(bytes::words(module.record.constants).rev());
        constants.for_each(|(slot, value)| *slot = value);
    }
    memory[HEADER_WORDS as usize..][..parameters.len()].copy_from_slice(parameters);
    let (pc, gp) = (main.record.entry(0), main.globals_at());
    let frames_at = set.frames_at();
    Ok(Registers { pc, fp: frames_at, mp: frames_at, gp, height: 0, calls: 0, module: 0 })
}

/// Runs a record by itself, whose copy is its code.
pub fn run(
    record: &[u8],
    budget: u32,
    memory: &mut [u32],
    stack: &mut [u32],
    registers: &mut Registers,
) -> Result<Outcome, u32> {
    let copy = Split::read(record).map_or(&[][..], |parts| parts.code);
    run_set(&[Lent::main(record, &[])], budget, copy, memory, stack, registers)
}

/// Runs at most `budget` steps. Refused (1 to 3, 5 to 7, 17, 18, 24), it changes nothing.
pub fn run_set(
    lent: &[Lent],
    budget: u32,
    copy: &[u8],
    memory: &mut [u32],
    stack: &mut [u32],
    registers: &mut Registers,
) -> Result<Outcome, u32> {
    let set = Set::read(lent)?;
    if !fits(&set, copy, memory, stack, registers) {
        return Err(24);
    }
    let mut machine = Machine::new(&set, copy, memory, stack, *registers);
    let outcome = run_steps(&mut machine, budget);
    *registers = machine.registers;
    Ok(outcome)
}

#[inline(always)]
fn run_steps(machine: &mut Machine, budget: u32) -> Outcome {
    let mut taken = budget;
    let mut end = SPENT;
    for steps in 0..budget {
        if let Err(stop) = machine.step() {
            end = stop as u32;
            taken = steps + u32::from(stop == Stop::Finished);
            break;
        }
    }
    let Registers { pc, module, .. } = machine.registers;
    Outcome { end, at: pc, steps: taken, module }
}

/// Sizes of copy, memory and stack that load takes.
fn sizes_fit(set: &Set, copy: &[u8], memory: &[u32], stack: &[u32]) -> bool {
    (set.frames_at() as usize..=LARGEST_MEMORY).contains(&memory.len())
        && copy.len() >= set.copy_size()
        && stack.len() <= LARGEST_STACK
}

/// A state that a run takes (01, "A state fits when .."; 02, K1).
pub fn fits(set: &Set, copy: &[u8], memory: &[u32], stack: &[u32], registers: &Registers) -> bool {
    let header_stands = |(number, module): (usize, &Module)| {
        memory[module.frame_at() as usize..].starts_with(&module.header(number))
    };
    sizes_fit(set, copy, memory, stack)
        && copy.starts_with(&set.copy())
        && set.modules.iter().enumerate().all(header_stands)
        && set.at_globals(registers.gp) == Some(registers.module as usize)
        && registers.fp <= registers.mp
        && registers.mp as usize <= memory.len()
        && registers.height as usize <= stack.len()
        && registers.calls <= MOST_CALLS
        && frames_end(set, memory, registers) == Some(set.frames_at())
}

/// The link words of an active call lie right below its FP.
#[derive(Clone, Copy, PartialEq, Eq)]
pub(crate) enum Link {
    /// Dynamic link, return address.
    Local,
    /// Global link, dynamic link, return address as a number not above 0.
    External,
}

impl Link {
    /// Tells the kind of link by its return word.
    #[inline(always)]
    pub fn of(return_word: u32) -> Link {
        if return_word as i32 > 0 {
            Link::Local
        } else {
            Link::External
        }
    }

    #[inline(always)]
    pub fn words(self) -> u32 {
        match self {
            Link::Local => 2,
            Link::External => 3,
        }
    }
}

/// Finds where the chain of saved frame pointers ends, if each is at least as many words lower as
/// its link has, and each global link points at a module's globals.
fn frames_end(set: &Set, memory: &[u32], registers: &Registers) -> Option<u32> {
    let mut fp = registers.fp;
    for _ in 0..registers.calls {
        let [dynamic_at, return_at] = [fp.checked_sub(2)?, fp - 1];
        let link = Link::of(memory[return_at as usize]);
        let highest = fp.checked_sub(link.words())?;
        if link == Link::External {
            set.at_globals(memory[highest as usize])?;
        }
        fp = memory[dynamic_at as usize];
        if fp > highest {
            return None;
        }
    }
    Some(fp)
}
