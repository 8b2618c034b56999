//! Expressions of random bodies: each pushes one word.

use super::assembler::Branch;
use super::body::{Body, Held, Signature};

const SIGNED: [u8; 5] = [0xa0, 0xa1, 0xa2, 0xa3, 0xa5];
const UNSIGNED: [u8; 5] = [0xa8, 0xa9, 0xaa, 0xab, 0xad];
const SETS: [u8; 3] = [0xb8, 0xb9, 0xba];
const TESTS: [u8; 13] =
    [0xbe, 0xbf, 0xc0, 0xc1, 0xc2, 0xc3, 0xc4, 0xc5, 0xc6, 0xc7, 0xd0, 0xd1, 0xd2];

/// Opcodes of a load or store by its base: the sixteen short forms and the byte form.
struct Forms {
    short: u8,
    byte: u8,
}

const LOAD_L: Forms = Forms { short: 0x10, byte: 0x85 };
const LOAD_G: Forms = Forms { short: 0x20, byte: 0x86 };
const LOAD_F: Forms = Forms { short: 0x30, byte: 0x87 };
const STOR_L: Forms = Forms { short: 0x40, byte: 0x94 };
const STOR_G: Forms = Forms { short: 0x50, byte: 0x95 };
const STOR_F: Forms = Forms { short: 0x60, byte: 0x96 };

impl Body<'_> {
    pub fn value(&mut self, depth: usize) {
        if depth == 0 {
            return match self.random.below(3) {
                0 => self.load(false),
                _ => {
                    let value = self.random.word();
                    self.constant(value);
                }
            };
        }
        if self.turns_outside(12) {
            return self.external_value(depth);
        }
        match self.random.below(12) {
            _ if self.scope.wraps && self.random.percent(10) => self.wrapped(),
            0 | 1 => {
                let value = self.random.word();
                self.constant(value);
            }
            2..=4 => self.load(false),
            5 | 6 => {
                let family = self.random.pick(&[&SIGNED[..], &SIGNED[..2], &UNSIGNED, &SETS]);
                self.binary(family, depth);
            }
            7 => {
                self.value(depth - 1);
                self.code.bytes(&[0xa6]);
            }
            8 => self.boolean(depth),
            9 => match self.function() {
                Some(callee) => {
                    let results = self.call(callee, depth - 1);
                    if results == 2 {
                        self.operator(&SIGNED[..2]);
                    }
                }
                None => self.address(),
            },
            10 => {
                self.load(true);
                self.operator(&SIGNED[..3]);
            }
            _ => {
                let size =
                    if self.wild() { self.random.word() } else { self.random.below(3) as u32 };
                self.constant(size);
                self.code.bytes(&[0xd8]);
            }
        }
    }

    /// Loads a global of a library, or what one of its procedures gives.
    fn external_value(&mut self, depth: usize) {
        if self.random.percent(60) {
            return self.load_external();
        }
        match self.call_external(depth - 1) {
            0 => self.load_external(),
            2 => self.operator(&SIGNED[..2]),
            _ => {}
        }
    }

    pub fn boolean(&mut self, depth: usize) {
        match self.random.below(8) {
            0..=3 if depth > 0 => self.binary(&TESTS, depth),
            4 if depth > 0 => {
                self.boolean(depth - 1);
                self.code.bytes(&[0xd7]);
            }
            5 | 6 if depth > 0 => {
                let end = self.code.label();
                let kind = self.random.pick(&[Branch::JumpT, Branch::JumpF]);
                self.boolean(depth - 1);
                self.code.branch(kind, end, false);
                self.pop(1);
                self.boolean(depth - 1);
                self.code.mark(end);
            }
            _ if self.wild() => self.value(0),
            _ => {
                let truth = self.random.below(2) as u32;
                self.constant(truth);
            }
        }
    }

    fn binary(&mut self, family: &[u8], depth: usize) {
        self.value(depth - 1);
        self.value(depth - 1);
        self.operator(family);
    }

    /// Writes ADD_U, SUB_U or MUL_U of words whose result often leaves the range.
    fn wrapped(&mut self) {
        for _ in 0..2 {
            let word = self.random.bits();
            self.constant(word);
        }
        self.operator(&UNSIGNED[..3]);
    }

    fn operator(&mut self, family: &[u8]) {
        let opcode = self.random.pick(family);
        self.code.bytes(&[opcode]);
        self.pop(1);
    }

    /// A constant in one of the forms that can hold it.
    pub fn constant(&mut self, value: u32) {
        let signed = value as i32;
        let form = self.random.below(4);
        let bytes = value.to_be_bytes();
        if form == 0 && value < 16 || form < 3 && value < 16 && self.random.percent(80) {
            self.code.bytes(&[value as u8]);
        } else if form < 2 && i8::try_from(signed).is_ok() {
            self.code.bytes(&[0x82, bytes[3]]);
        } else if form < 3 && i16::try_from(signed).is_ok() {
            self.code.bytes(&[0x83, bytes[2], bytes[3]]);
        } else {
            self.code.bytes(&[0x84, bytes[0], bytes[1], bytes[2], bytes[3]]);
        }
        self.push(1);
    }

    fn wild(&mut self) -> bool {
        let wild = self.scope.wild;
        self.random.percent(wild)
    }

    /// An offset into `size` words, mostly inside.
    pub fn offset(&mut self, size: usize) -> usize {
        if size == 0 || self.wild() {
            self.random.below(40)
        } else {
            self.random.below(size.min(256))
        }
    }

    fn local_words(&self) -> usize {
        let Signature { parameters, locals, .. } = self.signature();
        parameters + locals
    }

    /// Local where there is one, else global.
    fn prefers_local(&mut self) -> bool {
        self.local_words() > 0 && (self.scope.globals == 0 || self.random.percent(50))
    }

    /// One load or store, with DOUBLE where it is of two words.
    fn access(&mut self, forms: Forms, offset: usize, double: bool) {
        if double {
            self.code.bytes(&[0xf5]);
        }
        if offset < 16 && self.random.percent(80) {
            self.code.bytes(&[forms.short + offset as u8]);
        } else if forms.byte == LOAD_F.byte || forms.byte == STOR_F.byte {
            if offset > 255 || self.random.percent(50) {
                self.code.bytes(&[forms.byte + 1, (offset >> 8) as u8, offset as u8]);
            } else {
                self.code.bytes(&[forms.byte, offset as u8]);
            }
        } else {
            self.code.bytes(&[forms.byte, offset as u8]);
        }
    }

    fn load(&mut self, double: bool) {
        let words = 1 + usize::from(double);
        match self.random.below(8) {
            0 if self.scope.constants > 0 => {
                let offset = self.offset(self.scope.constants);
                if double {
                    self.code.bytes(&[0xf5]);
                }
                if self.random.percent(50) {
                    self.code.bytes(&[0x80, offset as u8]);
                } else {
                    self.code.bytes(&[0x81, 0, offset as u8]);
                }
            }
            1 => {
                self.address();
                self.pop(1);
                self.access(LOAD_F, 0, double);
            }
            _ if self.prefers_local() => {
                let offset = self.offset(self.local_words());
                self.access(LOAD_L, offset, double);
            }
            _ => {
                let offset = self.offset(self.scope.globals);
                self.access(LOAD_G, offset, double);
            }
        }
        self.push(words);
    }

    /// A statement: stores one or two words.
    pub fn store(&mut self) {
        if self.turns_outside(20) {
            return self.store_external();
        }
        let double = self.random.percent(20);
        let words = 1 + usize::from(double);
        let pointer = self.random.percent(20);
        if pointer {
            self.address();
        }
        if double && self.random.percent(50) {
            self.load(true);
        } else {
            (0..words).for_each(|_| self.value(2));
        }
        if pointer {
            let offset = if self.wild() { self.random.below(300) } else { 0 };
            self.access(STOR_F, offset, double);
            self.pop(words + 1);
        } else if self.prefers_local() {
            let offset = self.offset(self.local_words());
            self.access(STOR_L, offset, double);
            self.pop(words);
        } else {
            let offset = self.offset(self.scope.globals);
            self.access(STOR_G, offset, double);
            self.pop(words);
        }
    }

    /// Pushes an address, mostly one that may be stored to.
    pub fn address(&mut self) {
        if self.wild() {
            match self.random.below(4) {
                0 => self.code.bytes(&[0x92, 0]),
                1 => self.code.bytes(&[0x93, 0, 1]),
                2 => self.code.bytes(&[0x8d, 200]),
                _ => {
                    let address = self.random.word();
                    self.constant(address);
                    self.pop(1);
                }
            }
            self.push(1);
            return;
        }
        if self.turns_outside(25) {
            return self.address_external();
        }
        if self.prefers_local() {
            let offset = self.offset(self.local_words());
            self.code.bytes(&[0x8d, offset as u8]);
        } else {
            let offset = self.offset(self.scope.globals);
            self.code.bytes(&[0x8e, offset as u8]);
        }
        self.push(1);
        match self.random.below(12) {
            0 => self.code.bytes(&[0x8f, 0]),
            1 => self.code.bytes(&[0x90, 0, 1]),
            _ => {}
        }
    }

    /// A procedure to call: mostly a later one, so that calls end.
    pub fn callee(&mut self) -> Option<usize> {
        let count = self.scope.signatures.len();
        let later = self.procedure + 1;
        if later < count && self.random.percent(90) {
            Some(self.random.within(later..=count - 1))
        } else if count > 1 && (self.wild() || self.random.percent(10)) {
            Some(self.random.within(1..=count - 1))
        } else {
            None
        }
    }

    /// A callee with results.
    fn function(&mut self) -> Option<usize> {
        self.callee().filter(|&callee| self.scope.signatures[callee].results > 0)
    }

    /// Pushes the parameters of a call.
    pub fn arguments(&mut self, parameters: usize, depth: usize) {
        for _ in 0..parameters {
            if parameters > 10 || self.held.len() > 100 {
                self.constant(2);
            } else {
                self.value(depth);
            }
        }
    }

    /// Pushes the parameters and calls; the number of results.
    pub fn call(&mut self, callee: usize, depth: usize) -> usize {
        let Signature { parameters, results, .. } = self.scope.signatures[callee];
        self.arguments(parameters, depth);
        if callee < 16 && self.random.percent(70) {
            self.code.bytes(&[0x70 + callee as u8]);
        } else {
            self.code.bytes(&[0xe5, callee as u8]);
        }
        self.pop(parameters);
        self.held.resize(self.held.len() + results, Held::Word);
        results
    }
}
