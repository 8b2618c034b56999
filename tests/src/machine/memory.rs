//! Instructions that read and write memory: addresses, liveness, protection.

use super::step::{Machine, Step};
use super::stop::Stop;
use super::Link;
use crate::instruction::{Base, Width};
use crate::set::Module;

impl Machine<'_> {
    /// The address of an operand; for a pointer the address lies at height `at` of the stack.
    #[inline(always)]
    pub(super) fn address(&self, base: Base, offset: u32, at: u32) -> Option<u32> {
        let start = match base {
            Base::Local => self.registers.fp,
            Base::Global => self.registers.gp,
            Base::Constant => self.memory[self.registers.gp as usize - 1],
            Base::Pointer => self.stack[at as usize],
        };
        start.checked_add(offset)
    }

    /// The address of words that are all live (32).
    #[inline(always)]
    pub(super) fn live(&self, address: Option<u32>, width: Width) -> Step<usize> {
        let more = match width {
            Width::One => 0,
            Width::Two => 1,
        };
        match address {
            Some(address) if address < self.registers.mp && address + more < self.registers.mp => {
                Ok(address as usize)
            }
            _ => Err(Stop::NotLive),
        }
    }

    /// Header words, constants and the link words of active calls are never stored to (33).
    #[inline(always)]
    pub(super) fn unprotected(&self, address: u32) -> Step<()> {
        // Every link word lies below FP and above the constants.
        if address >= self.registers.fp || self.globals.contains(&address) {
            return Ok(());
        }
        let protected = if address < self.frames_at {
            !self.set.modules.iter().any(|module| module.globals().contains(&address))
        } else {
            is_link(self.memory, self.registers.fp, self.registers.calls, address)
        };
        if protected {
            return Err(Stop::Protected);
        }
        Ok(())
    }

    /// Finds the module that a library number of the copy names (23).
    #[inline(always)]
    pub(super) fn library(&self, number: u32) -> Step<&Module<'_>> {
        match number {
            0 => Err(Stop::NoCallee),
            _ => self.set.modules.get(number as usize).ok_or(Stop::NoCallee),
        }
    }

    /// Counts an offset from the first global of a library (BASE).
    #[inline(always)]
    pub(super) fn external_address(&self, library: u32, offset: u32) -> Step<u32> {
        Ok(self.library(library)?.globals_at() + offset)
    }

    #[inline(always)]
    pub(super) fn load_external(&mut self, library: u32, offset: u32, next: i32) -> Step<()> {
        let address = self.external_address(library, offset)?;
        let from = self.live(Some(address), Width::One)?;
        self.push(0, self.memory[from], next)
    }

    #[inline(always)]
    pub(super) fn store_external(&mut self, library: u32, offset: u32, next: i32) -> Step<()> {
        let low = self.without(1)?;
        let address = self.external_address(library, offset)?;
        let to = self.live(Some(address), Width::One)?;
        self.unprotected(address)?;
        self.go(next, low)?;
        self.memory[to] = self.stack[low as usize];
        Ok(())
    }

    #[inline(always)]
    pub(super) fn load(&mut self, base: Base, offset: u32, width: Width, next: i32) -> Step<()> {
        let popped = if base == Base::Pointer { 1 } else { 0 };
        let low = self.without(popped)?;
        let from = self.live(self.address(base, offset, low), width)?;
        match width {
            Width::One => self.push(popped, self.memory[from], next),
            Width::Two => {
                self.room(low + 2)?;
                self.go(next, low + 2)?;
                self.stack[low as usize] = self.memory[from];
                self.stack[low as usize + 1] = self.memory[from + 1];
                Ok(())
            }
        }
    }

    #[inline(always)]
    pub(super) fn load_address(&mut self, base: Base, offset: u32, next: i32) -> Step<()> {
        let popped = if base == Base::Pointer { 1 } else { 0 };
        let low = self.without(popped)?;
        let address = self.address(base, offset, low).ok_or(Stop::DoesNotFit)?;
        self.push(popped, address, next)
    }

    #[inline(always)]
    pub(super) fn store(&mut self, base: Base, offset: u32, width: Width, next: i32) -> Step<()> {
        let popped = if base == Base::Pointer { 1 } else { 0 };
        let words = match width {
            Width::One => 1,
            Width::Two => 2,
        };
        let low = self.without(popped + words)?;
        let to = self.live(self.address(base, offset, low), width)?;
        self.unprotected(to as u32)?;
        if width == Width::Two {
            self.unprotected(to as u32 + 1)?;
        }
        self.go(next, low)?;
        let value = (low + popped) as usize;
        self.memory[to] = self.stack[value];
        if width == Width::Two {
            self.memory[to + 1] = self.stack[value + 1];
        }
        Ok(())
    }

    /// MP after `size` more words (35).
    #[inline(always)]
    pub(super) fn allocated(&self, size: u32) -> Step<u32> {
        let free = self.memory.len() as u32 - self.registers.mp;
        if size > free {
            return Err(Stop::MemoryFull);
        }
        Ok(self.registers.mp + size)
    }
}

/// Is an address below FP one of the link words of an active call? Links fall with the chain.
#[cold]
fn is_link(memory: &[u32], mut fp: u32, calls: u32, address: u32) -> bool {
    for _ in 0..calls {
        let link = Link::of(memory[fp as usize - 1]);
        if address >= fp - link.words() {
            return address < fp;
        }
        fp = memory[fp as usize - 2];
    }
    false
}
