//! Conditions, loops and switches of random bodies.

use super::assembler::{Branch, Label, Range};
use super::body::{Body, Held};

impl Body<'_> {
    pub fn if_else(&mut self, depth: usize) {
        let (otherwise, end) = (self.code.label(), self.code.label());
        self.boolean(2);
        self.branch(Branch::JumpC, otherwise);
        self.pop(1);
        self.block(depth - 1);
        if self.random.percent(50) {
            self.branch(Branch::Jump, end);
            self.code.mark(otherwise);
            self.block(depth - 1);
        } else {
            self.code.mark(otherwise);
        }
        self.code.mark(end);
    }

    pub fn while_loop(&mut self, depth: usize) {
        let (top, end) = (self.code.label(), self.code.label());
        self.code.mark(top);
        self.boolean(2);
        self.branch(Branch::JumpC, end);
        self.pop(1);
        self.block(depth - 1);
        self.branch(Branch::Jump, top);
        self.code.mark(end);
    }

    pub fn repeat_loop(&mut self, depth: usize) {
        let top = self.code.label();
        self.code.mark(top);
        self.block(depth - 1);
        self.boolean(2);
        self.branch(Branch::JumpC, top);
        self.pop(1);
    }

    pub fn for_loop(&mut self, depth: usize) {
        let exit = self.code.label();
        self.address();
        self.loop_bounds();
        self.code.branch(Branch::Iter, exit, false);
        self.held.push(Held::Iter { exit });
        self.block(depth - 1);
        self.code.bytes(&[0xe1]);
        self.pop(5);
        self.code.mark(exit);
    }

    /// First, last and step, mostly of a short loop.
    fn loop_bounds(&mut self) {
        if self.random.percent(15) {
            (0..3).for_each(|_| self.value(1));
            return;
        }
        if self.random.percent(10) {
            return self.bounds_at_range_end();
        }
        let first = self.random.below(7) as i32 - 3;
        let step = self.random.pick(&[1, 1, 1, 2, 3, -1, -1, -2, 0]);
        let last = first + step * self.random.below(5) as i32 - self.random.below(2) as i32;
        for bound in [first, last, step] {
            self.constant(bound as u32);
        }
    }

    /// Bounds of a loop that ends where its sum leaves the signed range, or just before.
    fn bounds_at_range_end(&mut self) {
        let step = self.random.pick(&[1, 1, 2, 3, -1, -1, -2, -3]);
        let end = if step > 0 { i32::MAX } else { i32::MIN };
        let first =
            end - step * self.random.below(4) as i32 - step.signum() * self.random.below(3) as i32;
        let last = end - step.signum() * self.random.below(2) as i32;
        for bound in [first, last, step] {
            self.constant(bound as u32);
        }
    }

    pub fn switch(&mut self, depth: usize) {
        let (exit, otherwise) = (self.code.label(), self.code.label());
        self.selector();
        let most = if self.random.percent(5) { 60 } else { 5 };
        let labels: Vec<Label> =
            (0..self.random.within(1..=3)).map(|_| self.code.label()).collect();
        let mut branches: Vec<Label> =
            (0..self.random.within(1..=most)).map(|_| self.random.pick(&labels)).collect();
        if self.random.percent(20) {
            branches.push(otherwise);
        }
        self.code.switch(exit, otherwise, branches);
        self.branches(exit, otherwise, labels, depth);
    }

    pub fn switch_x(&mut self, depth: usize) {
        let (exit, otherwise) = (self.code.label(), self.code.label());
        self.selector();
        let labels: Vec<Label> =
            (0..self.random.within(1..=3)).map(|_| self.code.label()).collect();
        let mut ranges = Vec::new();
        for _ in 0..self.random.below(5) {
            let lower = self.random.below(9) as i32 - 4;
            let upper = lower + self.random.below(4) as i32 - 1;
            let to = self.random.percent(85).then(|| self.random.pick(&labels));
            ranges.push(Range { lower, upper, to });
        }
        self.code.switch_x(exit, otherwise, ranges);
        self.branches(exit, otherwise, labels, depth);
    }

    fn selector(&mut self) {
        if self.random.percent(50) {
            self.value(1);
        } else {
            let value = self.random.below(8) as i32 - 2;
            self.constant(value as u32);
        }
    }

    /// The branches of a switch whose selector is on top.
    fn branches(&mut self, exit: Label, otherwise: Label, labels: Vec<Label>, depth: usize) {
        self.pop(1);
        self.held.push(Held::Switch);
        for label in labels.into_iter().chain([otherwise]) {
            self.code.mark(label);
            self.block(depth - 1);
            // Without LEAVE the branch runs on into the next one.
            if label == otherwise || self.random.percent(85) {
                self.code.bytes(&[0xe4]);
            }
        }
        self.pop(1);
        self.code.mark(exit);
    }
}
