//! The cases that the papers work out: the twelve of 01 (its plates) and the manual's sample 5.3.

use crate::check::STRIDE;
use crate::generate::record::Parts;
use crate::interface::{Interface, OUTCOME_WORDS, STATE_WORDS};

/// A program with what check and run answer for it.
struct Worked {
    name: &'static str,
    parts: Parts,
    results: Vec<u8>,
    parameters: Vec<u32>,
    memory: usize,
    check: u32,
    /// End, place and steps; none where the papers do not say.
    outcome: Option<[u32; OUTCOME_WORDS]>,
    /// Globals and stack at the end, as far as the papers give them.
    globals: Vec<u32>,
    stack: Option<Vec<u32>>,
}

const STACK: usize = 16;
const BUDGET: u32 = 1_000;

impl Worked {
    fn new(name: &'static str, code: &[u8], globals: u32, parameters: &[u32]) -> Worked {
        Worked {
            name,
            parts: Parts { code: code.to_vec(), globals, ..Parts::default() },
            results: vec![0],
            parameters: parameters.to_vec(),
            memory: 64,
            check: 0,
            outcome: None,
            globals: vec![],
            stack: None,
        }
    }

    fn check(self, check: u32) -> Worked {
        Worked { check, ..self }
    }

    fn ends(self, end: u32, at: u32, steps: u32) -> Worked {
        Worked { outcome: Some([end, at, steps]), ..self }
    }

    fn globals(self, globals: &[u32]) -> Worked {
        Worked { globals: globals.to_vec(), ..self }
    }

    fn memory(self, memory: usize) -> Worked {
        Worked { memory, ..self }
    }

    fn results(self, results: &[u8]) -> Worked {
        Worked { results: results.to_vec(), ..self }
    }

    fn stack(self, stack: &[u32]) -> Worked {
        Worked { stack: Some(stack.to_vec()), ..self }
    }

    /// Err with what differs from the papers.
    fn hold(&self, library: &Interface) -> Result<(), String> {
        let record = self.parts.assemble();
        let mut workspace = vec![0; STRIDE * self.parts.code.len()];
        let number = (library.check)(&record, &self.results, &mut workspace);
        if number != self.check {
            return Err(format!("check {number}, not {}", self.check));
        }
        let mut state = [0; STATE_WORDS];
        let (mut memory, mut stack) = (vec![9; self.memory], vec![9; STACK]);
        let (memory, stack) = (&mut memory[..], &mut stack[..]);
        let number = (library.load)(&record, &self.parameters, memory, stack, &mut state);
        // Load refuses what the record's own tests refuse.
        if number != if self.check <= 7 { self.check } else { 0 } {
            return Err(format!("load {number}"));
        }
        let Some(expected) = self.outcome else { return Ok(()) };
        let mut outcome = [0; OUTCOME_WORDS];
        let number = (library.run)(&record, BUDGET, memory, stack, &mut state, &mut outcome);
        if (number, outcome) != (0, expected) {
            return Err(format!("run {number} {outcome:?}, not 0 {expected:?}"));
        }
        let globals = &memory[3..3 + self.globals.len()];
        let stack = &stack[..state[4] as usize];
        match &self.stack {
            _ if globals != self.globals => Err(format!("globals {globals:?}")),
            Some(expected) if stack != expected => Err(format!("stack {stack:?}")),
            _ => Ok(()),
        }
    }
}

/// Name and finding of each case.
pub fn run(library: &Interface) -> Vec<(&'static str, Result<(), String>)> {
    all().iter().map(|worked| (worked.name, worked.hold(library))).collect()
}

fn all() -> Vec<Worked> {
    let difference = [0x00, 0x02, 0x20, 0x21, 0xa1, 0x52, 0xe9];
    let modulus = [0x00, 0x02, 0x20, 0x21, 0xa5, 0x52, 0xe9];
    let looped = |bounds: [u8; 3]| {
        let mut code = vec![0x00, 0x02, 0x8e, 0x00];
        code.extend(bounds);
        code.extend([0xe0, 0x00, 0x08, 0x21, 0x20, 0xa1, 0x51, 0xe1, 0xe9]);
        code
    };
    let recursion = [0x00, 0x09, 0x00, 0x04, 0xe8, 0x00, 0x00, 0x71, 0xe9, 0x71, 0xe9];
    vec![
        Worked::new("1", &[0x00, 0x02, 0xe9], 0, &[]).ends(0, 2, 1),
        Worked::new("2", &difference, 3, &[9, 9]).ends(0, 6, 5).globals(&[9, 9, 0]),
        Worked::new("3", &modulus, 3, &[7, 0]).ends(30, 4, 2).globals(&[7, 0, 0]).stack(&[7, 0]),
        Worked::new("4", &modulus, 3, &[7, 3]).ends(0, 6, 5).globals(&[7, 3, 1]),
        Worked::new("5", &looped([1, 3, 1]), 2, &[]).ends(0, 15, 21).globals(&[4, -6i32 as u32]),
        Worked::new("6", &looped([3, 1, 1]), 2, &[]).ends(0, 15, 6).globals(&[0, 0]),
        Worked::new("7", &[0x00, 0x02, 0xa1, 0xe9], 0, &[]).check(15).ends(22, 2, 0),
        Worked::new("8", &[0x00, 0x02, 0xda, 0x01, 0xe9], 0, &[]).check(12),
        Worked::new("9", &[0x00, 0x02, 0x01, 0xe9], 0, &[]).check(15).ends(0, 3, 2).stack(&[1]),
        Worked::new("10", &[0x00, 0x02], 0, &[]).check(7),
        Worked::new("11", &recursion, 0, &[]).results(&[0, 0]).memory(131).ends(37, 7, 128),
        Worked::new("12", &recursion, 0, &[]).results(&[0, 0]).memory(10).ends(35, 7, 6),
        sample("5.3 as printed", &SAMPLE_TAIL).check(10).ends(20, 52, 142),
        sample("5.3 as served", &[0x72, 0x53, 0xe9]).ends(0, 50, 151).globals(&[55, 10, 11, 5]),
    ]
}

/// The manual's sample up to its calls of system procedures, with another tail.
fn sample(name: &'static str, tail: &[u8]) -> Worked {
    let code = [&SAMPLE_CODE, tail].concat();
    let size = code.len() as u32;
    let pairs = SAMPLE_LINES.into_iter().filter(|pair| pair[0] < size);
    let mut worked = Worked::new(name, &code, 6, &[]).results(&[0, 0, 1]);
    worked.parts.constants = vec![0x0000000d, 0x4d65616e, 0x2076616c, 0x7565203d, 0x20202020];
    worked.parts.version = vec![*b" 3/-"];
    worked.parts.source = pairs.flatten().collect();
    worked
}

/// Offsets 0 to 47.
const SAMPLE_CODE: [u8; 48] = [
    0x00, 0x21, 0x00, 0x06, 0x00, 0x12, // entries
    0xe8, 0x01, 0x03, 0x20, 0x10, 0xa0, 0x50, 0x21, 0x01, 0xa0, 0x51, 0xe9, // Add
    0xe8, 0x00, 0x02, 0x21, 0x00, 0xbe, 0xdd, 0x00, 0x05, 0x00, 0xe9, // Mean
    0x20, 0x21, 0xa3, 0xe9, //
    0x00, 0x50, 0x00, 0x51, 0x8e, 0x02, 0x01, 0x0a, 0x01, 0xe0, 0x00, 0x06, // main
    0x22, 0x71, 0xe1,
];

/// Offset 48 to the end: SYS and HALT are not served.
const SAMPLE_TAIL: [u8; 17] = [
    0x92, 0x00, 0x0d, 0x00, 0xf4, 0xff, 0x06, 0x72, 0x01, 0xf4, 0xff, 0x07, 0xf4, 0xff, 0x09, 0x00,
    0xfe,
];

#[rustfmt::skip]
const SAMPLE_LINES: [[u32; 2]; 16] = [
    [6, 10], [9, 11], [13, 12], [17, 13], [18, 17], [21, 18], [27, 19], [29, 21], [33, 27],
    [35, 28], [37, 30], [45, 31], [48, 34], [55, 35], [60, 36], [63, 37],
];

#[cfg(test)]
mod tests {
    use crate::interface::REFERENCE;

    #[test]
    fn reference_answers_as_the_papers_do() {
        for (name, finding) in super::run(&REFERENCE) {
            assert_eq!(finding, Ok(()), "case {name}");
        }
    }
}
