//! Loops and calls.

use super::step::{Machine, Step};
use super::stop::Stop;
use super::{Link, Registers, MOST_CALLS};
use crate::instruction::Width;

impl Machine<'_> {
    /// ITER: address, first, last, step. The address is tested only where the loop is entered.
    #[inline(always)]
    pub(super) fn iterate(&mut self, exit: i32, next: i32) -> Step<()> {
        let low = self.without(4)?;
        let [address, first, last, step] = self.words_at(low);
        if passed(step, first, last) {
            return self.go(exit, low);
        }
        let to = self.live(Some(address), Width::One)?;
        self.unprotected(address)?;
        self.push(0, next as u32, next)?;
        self.memory[to] = first;
        Ok(())
    }

    /// NEXT: address, first, last, step, label. Where the sum leaves the signed range the loop is
    /// left, and nothing is stored (02, K3).
    #[inline(always)]
    pub(super) fn next(&mut self, next: i32) -> Step<()> {
        let low = self.without(5)?;
        let [address, _, last, step] = self.words_at(low);
        let label = self.stack[low as usize + 4];
        let to = self.live(Some(address), Width::One)?;
        self.unprotected(address)?;
        let Some(sum) = (self.memory[to] as i32).checked_add(step as i32) else {
            return self.go(next, low);
        };
        let sum = sum as u32;
        if passed(step, sum, last) {
            self.go(next, low)?;
        } else {
            self.go_to_word(label, low + 5)?;
        }
        self.memory[to] = sum;
        Ok(())
    }

    #[inline(always)]
    pub(super) fn words_at(&self, low: u32) -> [u32; 4] {
        let words = &self.stack[low as usize..][..4];
        [words[0], words[1], words[2], words[3]]
    }

    /// CALL tests callee, depth, memory.
    #[inline(always)]
    pub(super) fn call(&mut self, procedure: u32, next: i32) -> Step<()> {
        if procedure == 0 || procedure >= self.procedures {
            return Err(Stop::NoCallee);
        }
        if self.registers.calls == MOST_CALLS {
            return Err(Stop::TooManyCalls);
        }
        let mp = self.allocated(2)?;
        let at = 2 * procedure as usize;
        let entry = u32::from(u16::from_be_bytes([self.code[at], self.code[at + 1]]));
        self.go_to_word(entry, self.registers.height)?;
        let link = self.registers.mp as usize;
        self.memory[link] = self.registers.fp;
        self.memory[link + 1] = next as u32;
        self.registers.fp = mp;
        self.registers.mp = mp;
        self.registers.calls += 1;
        Ok(())
    }

    /// Tests library, callee, depth, memory (CALL_E). Its words are global link, dynamic link, and
    /// minus the return offset.
    #[inline(always)]
    pub(super) fn call_external(&mut self, library: u32, procedure: u32, next: i32) -> Step<()> {
        let record = &self.library(library)?.record;
        if procedure == 0 || procedure >= record.procedures {
            return Err(Stop::NoCallee);
        }
        // An entry lies inside its code, so that the next place needs no test.
        let entry = record.entry(procedure);
        if self.registers.calls == MOST_CALLS {
            return Err(Stop::TooManyCalls);
        }
        let mp = self.allocated(3)?;
        let Registers { gp, fp, mp: link, .. } = self.registers;
        let words = [gp, fp, next.wrapping_neg() as u32];
        self.memory[link as usize..][..3].copy_from_slice(&words);
        self.turn_to(library as usize);
        self.registers.pc = entry;
        self.registers.fp = mp;
        self.registers.mp = mp;
        self.registers.calls += 1;
        Ok(())
    }

    #[inline(always)]
    pub(super) fn enter(&mut self, parameters: u32, locals: u32, next: i32) -> Step<()> {
        let low = self.without(parameters)?;
        let mp = self.allocated(parameters + locals)?;
        self.go(next, low)?;
        let count = parameters as usize;
        self.memory[self.registers.mp as usize..][..count]
            .copy_from_slice(&self.stack[low as usize..][..count]);
        self.registers.mp = mp;
        Ok(())
    }

    /// Returns from an active call by its return word (RTN): a local call's is a code offset, an
    /// external one's minus an offset of the module that its global link points at.
    #[inline(always)]
    pub(super) fn ret(&mut self) -> Step<()> {
        let fp = self.registers.fp;
        let (dynamic, word) = (self.memory[fp as usize - 2], self.memory[fp as usize - 1]);
        let link = Link::of(word);
        match link {
            Link::Local => self.go_to_word(word, self.registers.height)?,
            Link::External => self.return_external(word)?,
        }
        self.registers.mp = fp - link.words();
        self.registers.fp = dynamic;
        self.registers.calls -= 1;
        Ok(())
    }

    /// Goes back to the module of the global link. The next place is tested against its code.
    fn return_external(&mut self, word: u32) -> Step<()> {
        let global = self.memory[self.registers.fp as usize - 3];
        let module = self.set.at_globals(global).expect("a global link points at globals");
        let place = word.wrapping_neg();
        if place as usize >= self.set.modules[module].record.code.len() {
            return Err(Stop::OutsideCode);
        }
        self.turn_to(module);
        self.registers.pc = place;
        Ok(())
    }
}

/// Has a loop variable passed its last value? Signed; a step of 0 never does.
#[inline(always)]
fn passed(step: u32, value: u32, last: u32) -> bool {
    let (step, value, last) = (step as i32, value as i32, last as i32);
    (step > 0 && value > last) || (step < 0 && value < last)
}
