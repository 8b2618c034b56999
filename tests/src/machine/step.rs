//! One step. Tests stand before writes, so a trapped step leaves everything as it was.
//!
//! Order of the tests: first byte (21), opcode and mode (20), the other bytes (21), number of
//! stack words (22), the manual's lines in order, the next place (21).

use super::stop::Stop;
use super::Registers;
use crate::arithmetic::{binary, negate};
use crate::instruction::{visit, Instruction, Visitor};
use crate::set::Set;
use std::ops::Range;

pub type Step<T> = Result<T, Stop>;

pub struct Machine<'a> {
    pub(super) set: &'a Set<'a>,
    copy: &'a [u8],
    pub(super) frames_at: u32,
    /// The running module's code in the copy, number of procedures, globals and rule of K11.
    pub(super) code: &'a [u8],
    pub(super) procedures: u32,
    pub(super) globals: Range<u32>,
    wraps: bool,
    pub(super) memory: &'a mut [u32],
    pub(super) stack: &'a mut [u32],
    pub registers: Registers,
}

impl Visitor for &mut Machine<'_> {
    type Output = ();
    type Error = Stop;

    #[inline(always)]
    fn visit(self, instruction: Instruction, next: usize) -> Step<()> {
        self.execute(instruction, next)
    }
}

impl<'a> Machine<'a> {
    /// `registers` fit the set, copy, memory and stack.
    pub fn new(
        set: &'a Set<'a>,
        copy: &'a [u8],
        memory: &'a mut [u32],
        stack: &'a mut [u32],
        registers: Registers,
    ) -> Machine<'a> {
        let mut machine = Machine {
            set,
            copy,
            frames_at: set.frames_at(),
            code: &[],
            procedures: 0,
            globals: 0..0,
            wraps: false,
            memory,
            stack,
            registers,
        };
        machine.turn_to(registers.module as usize);
        machine
    }

    /// Makes a module the running one.
    pub(super) fn turn_to(&mut self, number: usize) {
        let module = &self.set.modules[number];
        self.code = &self.copy[module.copy()];
        self.procedures = module.record.procedures;
        self.globals = module.globals();
        self.wraps = module.record.wraps;
        self.registers.gp = module.globals_at();
        self.registers.module = number as u32;
    }

    #[inline(always)]
    pub fn step(&mut self) -> Step<()> {
        visit(self.code, self.code.len(), self.registers.pc as usize, self)
    }

    #[inline(always)]
    fn execute(&mut self, instruction: Instruction, next: usize) -> Step<()> {
        use Instruction::*;
        let next = next as i32;
        match instruction {
            LoadConstant(value) => self.push(0, value, next)?,
            Load(base, offset, width) => self.load(base, offset, width, next)?,
            LoadAddress(base, offset) => self.load_address(base, offset, next)?,
            Store(base, offset, width) => self.store(base, offset, width, next)?,
            LoadExternal(library, offset) => self.load_external(library, offset, next)?,
            LoadAddressExternal(library, offset) => {
                let address = self.external_address(library, offset)?;
                self.push(0, address, next)?;
            }
            StoreExternal(library, offset) => self.store_external(library, offset, next)?,
            Pop(count) => {
                let height = self.without(count)?;
                self.go(next, height)?;
            }
            Swap => {
                let low = self.without(2)? as usize;
                self.go(next, self.registers.height)?;
                self.stack.swap(low, low + 1);
            }
            Nop => self.go(next, self.registers.height)?,
            Binary(operator) => {
                let low = self.without(2)? as usize;
                let value = binary(operator, self.stack[low], self.stack[low + 1], self.wraps)?;
                self.push(2, value, next)?;
            }
            NegI => {
                let top = self.without(1)?;
                self.push(1, negate(self.stack[top as usize])?, next)?;
            }
            Neg => {
                let (truth, _) = self.boolean()?;
                self.push(1, u32::from(!truth), next)?;
            }
            Alloc => {
                let size = self.stack[self.without(1)? as usize];
                let mp = self.allocated(size)?;
                self.push(1, self.registers.mp, next)?;
                self.registers.mp = mp;
            }
            Free => {
                let height = self.without(1)?;
                let size = self.stack[height as usize];
                if size > self.registers.mp - self.registers.fp {
                    return Err(Stop::FreeBelowFrame);
                }
                self.go(next, height)?;
                self.registers.mp -= size;
            }
            Jump(target) => self.go(target, self.registers.height)?,
            JumpC(target) => {
                let (truth, height) = self.boolean()?;
                self.go(if truth { next } else { target }, height)?;
            }
            JumpT(target) => {
                let (truth, height) = self.boolean()?;
                self.branch(truth, target, next, height)?;
            }
            JumpF(target) => {
                let (truth, height) = self.boolean()?;
                self.branch(!truth, target, next, height)?;
            }
            Iter { exit } => self.iterate(exit, next)?,
            Next => self.next(next)?,
            Switch(table) => {
                let selector = self.stack[self.without(1)? as usize];
                let target = table.select(self.code, selector);
                self.push(1, table.exit(self.code), target as i32)?;
            }
            Leave => {
                let height = self.without(1)?;
                self.go_to_word(self.stack[height as usize], height)?;
            }
            Call(procedure) => self.call(procedure, next)?,
            CallExternal(library, procedure) => self.call_external(library, procedure, next)?,
            Enter { parameters, locals } => self.enter(parameters, locals, next)?,
            Rtn if self.registers.calls == 0 => return Err(Stop::Finished),
            Rtn => self.ret()?,
        }
        Ok(())
    }

    /// The height without the top `count` words (22).
    #[inline(always)]
    pub(super) fn without(&self, count: u32) -> Step<u32> {
        self.registers.height.checked_sub(count).ok_or(Stop::TooFewWords)
    }

    /// The boolean on top (34) and the height without it.
    #[inline(always)]
    pub(super) fn boolean(&self) -> Step<(bool, u32)> {
        let height = self.without(1)?;
        match self.stack[height as usize] {
            0 => Ok((false, height)),
            1 => Ok((true, height)),
            _ => Err(Stop::NotBoolean),
        }
    }

    /// The last test of a step (21): continue at `target` with `height` words.
    #[inline(always)]
    pub(super) fn go(&mut self, target: i32, height: u32) -> Step<()> {
        self.go_to_word(target as u32, height)
    }

    /// As `go`; the code offset is an unsigned word.
    #[inline(always)]
    pub(super) fn go_to_word(&mut self, target: u32, height: u32) -> Step<()> {
        if target as usize >= self.code.len() {
            return Err(Stop::OutsideCode);
        }
        self.registers.pc = target;
        self.registers.height = height;
        Ok(())
    }

    /// JUMP_T and JUMP_F keep the boolean when they jump.
    #[inline(always)]
    pub(super) fn branch(&mut self, jumps: bool, target: i32, next: i32, popped: u32) -> Step<()> {
        if jumps {
            self.go(target, popped + 1)
        } else {
            self.go(next, popped)
        }
    }

    /// Room for words up to `height` (36).
    #[inline(always)]
    pub(super) fn room(&self, height: u32) -> Step<()> {
        if height as usize > self.stack.len() {
            return Err(Stop::StackFull);
        }
        Ok(())
    }

    /// Pops `count` words, pushes `value` and continues at `next`.
    #[inline(always)]
    pub(super) fn push(&mut self, count: u32, value: u32, next: i32) -> Step<()> {
        let top = self.without(count)?;
        self.room(top + 1)?;
        self.go(next, top + 1)?;
        self.stack[top as usize] = value;
        Ok(())
    }
}
