//! Misused labels: bodies that would be accepted if labels were words like any other.

use super::assembler::{Branch, Label};
use super::body::{Body, Held, Signature};

impl Body<'_> {
    /// Under a condition, uses the topmost label as it may not be used, and returns.
    pub fn misuse(&mut self) {
        let held = self.held.clone();
        let after = self.code.label();
        self.boolean(1);
        self.branch(Branch::JumpC, after);
        self.pop(1);
        let topmost = self.held.iter().rposition(|held| *held != Held::Word);
        match topmost {
            Some(at) if self.random.percent(80) => {
                self.pop_all(held.len() - at - 1);
                self.misuse_top();
            }
            _ => self.misuse_new(),
        }
        self.ret();
        self.held = held;
        self.code.mark(after);
    }

    /// The label is on top; afterwards it is gone or counts as a word.
    fn misuse_top(&mut self) {
        match self.random.below(9) {
            // One operand: STOR_G, NEG_I, NEG, ALLOC, FREE, LOAD_F, LOAD_A_F.
            0 | 1 => {
                let (bytes, pushes): (&[u8], usize) = self.random.pick(&[
                    (&[0x50][..], 0),
                    (&[0xa6], 1),
                    (&[0xd7], 1),
                    (&[0xd8], 1),
                    (&[0xd9], 0),
                    (&[0x30], 1),
                    (&[0xf5, 0x30], 2),
                    (&[0x8f, 0], 1),
                ]);
                self.apply(bytes, 1, pushes);
            }
            // The lower of two operands: DOUBLE STOR_G, ADD_I, SWAP, STOR_F.
            2 | 3 => {
                self.value(0);
                let (bytes, pushes): (&[u8], usize) = self.random.pick(&[
                    (&[0xf5, 0x50][..], 0),
                    (&[0xa0], 1),
                    (&[0xbe], 1),
                    (&[0x9f], 2),
                    (&[0x60], 0),
                ]);
                self.apply(bytes, 2, pushes);
            }
            4 => {
                let end = self.code.label();
                let kind = self.random.pick(&[Branch::JumpC, Branch::JumpT, Branch::JumpF]);
                self.code.branch(kind, end, false);
                if kind != Branch::JumpC {
                    self.constant(1);
                    self.pop(1);
                }
                self.code.mark(end);
                self.apply(&[], 1, usize::from(kind != Branch::JumpC));
            }
            // One of the four words of ITER.
            5 => {
                let above = self.random.below(4);
                let words = self.held.iter().rev().skip(1);
                let below = words.take_while(|held| **held == Held::Word).count();
                let above = above.max(3 - below.min(3));
                (0..above).for_each(|_| self.value(0));
                let exit = self.code.label();
                self.code.branch(Branch::Iter, exit, false);
                let leave: &[u8] = self.random.pick(&[&[0xe1][..], &[0x9e, 5]]);
                self.code.bytes(leave);
                self.code.mark(exit);
                self.pop(4);
            }
            6 => self.switch_over(&[0xe4]),
            7 => self.pass_as_parameter(),
            // Left among the results.
            _ => {
                let results = self.signature().results;
                if results > 0 {
                    (1..results).for_each(|_| self.value(0));
                    self.code.bytes(&[0xe9]);
                    self.pop(results - 1);
                }
            }
        }
    }

    fn apply(&mut self, bytes: &[u8], pops: usize, pushes: usize) {
        self.code.bytes(bytes);
        self.pop(pops);
        self.push(pushes);
    }

    fn pass_as_parameter(&mut self) {
        if self.turns_outside(50) {
            return self.pass_outside();
        }
        let Some(callee) = self.callee() else { return };
        let Signature { parameters, results, .. } = self.scope.signatures[callee];
        if !(1..=10).contains(&parameters) {
            return;
        }
        (1..parameters).for_each(|_| self.value(0));
        self.apply(&[0xe5, callee as u8], parameters, results);
    }

    fn pass_outside(&mut self) {
        let Some((library, callee)) = self.external_callee() else { return };
        let Signature { parameters, results, .. } =
            self.scope.libraries[library].signatures[callee];
        if !(1..=10).contains(&parameters) {
            return;
        }
        (1..parameters).for_each(|_| self.value(0));
        self.apply(&[0xe6, library as u8 + 1, callee as u8], parameters, results);
    }

    /// A switch over what is on top, all of whose branches are `branch`.
    fn switch_over(&mut self, branch: &[u8]) {
        let (exit, only): (Label, Label) = (self.code.label(), self.code.label());
        self.code.switch(exit, only, vec![only]);
        self.code.mark(only);
        self.code.bytes(branch);
        self.code.mark(exit);
        self.pop(1);
    }

    /// A label of its own, used by the wrong one of NEXT and LEAVE.
    fn misuse_new(&mut self) {
        if self.random.percent(50) {
            // NEXT on the label of a switch that lies on four words.
            (0..5).for_each(|_| self.value(0));
            self.switch_over(&[0xe1]);
            self.pop(4);
        } else {
            let exit = self.code.label();
            (0..4).for_each(|_| self.value(0));
            self.code.branch(Branch::Iter, exit, false);
            self.code.bytes(&[0xe4]);
            self.code.mark(exit);
            self.pop(4);
        }
    }
}
