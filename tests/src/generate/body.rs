//! Random procedure bodies that the check accepts: the generator keeps track of the slots.

use super::assembler::{Assembler, Branch, Label};
use crate::random::Random;

/// What a call of a procedure takes and leaves.
#[derive(Clone, Copy, Debug)]
pub struct Signature {
    pub parameters: usize,
    pub locals: usize,
    pub results: usize,
}

/// What another module offers.
#[derive(Clone)]
pub struct Library {
    pub signatures: Vec<Signature>,
    pub globals: usize,
}

/// What the bodies of a program may refer to.
pub struct Scope {
    pub signatures: Vec<Signature>,
    pub globals: usize,
    pub constants: usize,
    /// What its import list names, library 1 first.
    pub libraries: Vec<Library>,
    /// Chance in percent of an operand that is likely to trap.
    pub wild: usize,
    /// Chance in percent of a statement that the check refuses.
    pub flaw: usize,
    /// Unsigned results wrap (02, K11), so that they may leave the range.
    pub wraps: bool,
}

#[derive(Clone, Copy, Debug, PartialEq, Eq)]
pub enum Held {
    Word,
    /// Label of a loop that is left for `exit` with the loop's five slots gone.
    Iter {
        exit: Label,
    },
    Switch,
}

pub struct Body<'a> {
    pub random: &'a mut Random,
    pub scope: &'a Scope,
    pub procedure: usize,
    pub code: Assembler,
    pub held: Vec<Held>,
    /// Statements left to write.
    pub fuel: usize,
    /// Loops and switches still to be put inside each other.
    pub nest: usize,
}

/// Highest list that statements go on from: leaves room for what an expression pushes.
const HIGH: usize = 230;
/// Highest list that a nested loop starts from.
const HIGH_NEST: usize = 252;

impl Body<'_> {
    pub fn signature(&self) -> Signature {
        self.scope.signatures[self.procedure]
    }

    /// The whole body: ENTER where it belongs, statements, return.
    pub fn write(mut self) -> Option<Vec<u8>> {
        let Signature { parameters, locals, .. } = self.signature();
        if self.procedure > 0 || locals > 0 || self.random.percent(10) {
            self.code.bytes(&[0xe8, parameters as u8, locals as u8]);
        }
        if self.procedure > 0 && self.random.percent(5) {
            // Endless recursion.
            let results = self.call(self.procedure, 0);
            self.pop_all(results);
        }
        self.block(4);
        if self.fuel > 1 && self.random.percent(4) {
            self.tower();
        }
        self.ret();
        self.code.assemble()
    }

    pub fn block(&mut self, depth: usize) {
        if self.nest > 0 && self.held.len() < HIGH_NEST {
            self.nest -= 1;
            let depth = depth.max(1);
            match self.random.below(8) {
                0..=4 => self.for_loop(depth),
                5 => self.switch(depth),
                6 => self.switch_x(depth),
                _ => self.hold(depth),
            }
        }
        for _ in 0..self.random.below(4) {
            if self.fuel == 0 || self.held.len() > HIGH {
                return;
            }
            self.fuel -= 1;
            self.statement(depth);
        }
    }

    /// Leaves the slots as they were.
    fn statement(&mut self, depth: usize) {
        if self.random.percent(self.scope.flaw) {
            return self.misuse();
        }
        if depth == 0 {
            return self.store();
        }
        if self.turns_outside(25) {
            let results = self.call_external(1);
            return self.pop_all(results);
        }
        match self.random.below(20) {
            0..=3 => self.store(),
            4 | 5 => self.if_else(depth),
            6 => self.while_loop(depth),
            7 => self.repeat_loop(depth),
            8..=10 => self.for_loop(depth),
            11 | 12 => self.switch(depth),
            13 => self.switch_x(depth),
            14 | 15 => self.call_statement(),
            16 => self.hold(depth),
            17 => self.stack_play(),
            18 => self.escape(),
            _ => self.free(),
        }
    }

    pub fn branch(&mut self, kind: Branch, to: Label) {
        let wide = self.random.percent(30);
        self.code.branch(kind, to, wide);
    }

    pub fn push(&mut self, count: usize) {
        self.held.resize(self.held.len() + count, Held::Word);
    }

    pub fn pop(&mut self, count: usize) {
        self.held.truncate(self.held.len() - count);
    }

    /// POP, at times in pieces.
    pub fn pop_all(&mut self, mut count: usize) {
        self.pop(count);
        while count > 0 {
            let most = count.min(255);
            let some = if self.random.percent(80) { most } else { self.random.within(1..=most) };
            self.code.bytes(&[0x9e, some as u8]);
            count -= some;
        }
        if self.random.percent(5) {
            self.code.bytes(&[0x9e, 0]);
        }
    }

    fn call_statement(&mut self) {
        if let Some(callee) = self.callee() {
            let results = self.call(callee, 1);
            self.pop_all(results);
        }
    }

    /// Keeps words on the stack across statements.
    fn hold(&mut self, depth: usize) {
        let count = self.random.within(1..=4);
        for _ in 0..count {
            self.value(1);
        }
        self.block(depth - 1);
        self.pop_all(count);
    }

    fn stack_play(&mut self) {
        match self.random.below(3) {
            0 => self.code.bytes(&[0xff]),
            1 => {
                self.value(1);
                self.value(1);
                self.code.bytes(&[0x9f]);
                self.pop_all(2);
            }
            _ => {
                let count = self.random.within(1..=6);
                (0..count).for_each(|_| self.value(0));
                self.pop_all(count);
            }
        }
    }

    fn free(&mut self) {
        if self.random.percent(60) {
            self.constant(3);
            self.code.bytes(&[0xd8]);
            self.pop_all(1);
        }
        let size = if self.random.percent(80) { self.random.below(4) as u32 } else { 9 };
        self.constant(size);
        self.code.bytes(&[0xd9]);
        self.pop(1);
    }

    /// Leaves the middle of loops and switches, mostly under a condition. What follows without
    /// one is not reached.
    fn escape(&mut self) {
        let after = self.code.label();
        if self.random.percent(85) {
            self.boolean(1);
            self.branch(Branch::JumpC, after);
            self.pop(1);
        }
        let held = self.held.clone();
        let topmost = held.iter().rposition(|held| *held != Held::Word);
        match topmost.map(|at| (at, held[at])) {
            Some((at, Held::Switch)) if self.random.percent(60) => {
                self.pop_all(held.len() - at - 1);
                self.code.bytes(&[0xe4]);
            }
            Some((at, Held::Iter { exit })) if self.random.percent(60) => {
                if self.random.percent(50) {
                    self.pop_all(held.len() - at - 1);
                    self.code.bytes(&[0xe1]);
                } else {
                    self.pop_all(held.len() - at + 4);
                }
                self.branch(Branch::Jump, exit);
            }
            _ => self.ret(),
        }
        self.held = held;
        self.code.mark(after);
    }

    pub fn ret(&mut self) {
        self.pop_all(self.held.len());
        let results = self.signature().results;
        (0..results).for_each(|_| self.value(1));
        self.code.bytes(&[0xe9]);
        self.pop(results);
    }

    /// Comes close to the most slots of a list.
    fn tower(&mut self) {
        let most = if self.random.percent(10) { 256 } else { 255 };
        let height = most - self.random.below(3);
        let count = height.saturating_sub(self.held.len());
        (0..count).for_each(|_| self.constant(1));
        self.code.bytes(&[0x9e, count.min(255) as u8]);
        self.pop(count.min(255));
    }
}
