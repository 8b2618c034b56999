//! External loads, stores, addresses and calls of random bodies (02, K1).

use super::body::{Body, Signature};

impl Body<'_> {
    /// Decides whether to refer to a library, by a chance in percent; never without imports.
    pub fn turns_outside(&mut self, chance: usize) -> bool {
        !self.scope.libraries.is_empty() && self.random.percent(chance)
    }

    /// Writes LOAD_E, LOAD_A_E or STOR_E, mostly on a global of its library.
    fn external(&mut self, opcode: u8) {
        let library = self.random.below(self.scope.libraries.len());
        let offset = self.offset(self.scope.libraries[library].globals);
        self.code.bytes(&[opcode, library as u8 + 1, offset as u8]);
    }

    pub fn load_external(&mut self) {
        self.external(0x89);
        self.push(1);
    }

    pub fn address_external(&mut self) {
        self.external(0x91);
        self.push(1);
    }

    pub fn store_external(&mut self) {
        self.value(2);
        self.external(0x98);
        self.pop(1);
    }

    /// Pushes the parameters and calls a procedure of a library that has some; the number of
    /// results.
    pub fn call_external(&mut self, depth: usize) -> usize {
        let Some((library, procedure)) = self.external_callee() else { return 0 };
        let Signature { parameters, results, .. } =
            self.scope.libraries[library].signatures[procedure];
        self.arguments(parameters, depth);
        self.code.bytes(&[0xe6, library as u8 + 1, procedure as u8]);
        self.pop(parameters);
        self.push(results);
        results
    }

    /// Picks a procedure of a library; none where the library has no more than its procedure 0.
    pub fn external_callee(&mut self) -> Option<(usize, usize)> {
        let library = self.random.below(self.scope.libraries.len());
        let procedures = self.scope.libraries[library].signatures.len();
        (procedures > 1).then(|| (library, self.random.within(1..=procedures - 1)))
    }
}
