//! Random run files.

use super::program::{self, Program};
use super::record::{big_endian, damage_bytes, damage_parts};
use super::{damage, instructions};
use crate::random::Random;
use crate::report::{LARGEST_FILE_MEMORY, LARGEST_RUN_FILE};

/// The head's fields, put together whatever they are.
struct Head {
    magic: [u8; 5],
    results: Vec<u8>,
    parameters: Vec<u32>,
    budget: u32,
    memory_words: u16,
    stack_words: u16,
}

impl Head {
    fn assemble(&self, record: &[u8]) -> Vec<u8> {
        let mut bytes = self.magic.to_vec();
        bytes.push(self.results.len() as u8);
        bytes.extend(&self.results);
        bytes.push(self.parameters.len() as u8);
        bytes.extend(big_endian(&self.parameters));
        bytes.extend(self.budget.to_be_bytes());
        bytes.extend(self.memory_words.to_be_bytes());
        bytes.extend(self.stack_words.to_be_bytes());
        bytes.extend(record);
        bytes
    }
}

/// A run file: mostly of an accepted program, else damaged somewhere.
pub fn any(random: &mut Random) -> Vec<u8> {
    let mut program = some_program(random);
    if random.percent(20) {
        damage::damage(random, &mut program);
    }
    if random.percent(10) {
        damage_parts(random, &mut program.parts);
    }
    let mut record = program.parts.assemble();
    if random.percent(8) {
        damage_bytes(random, &mut record);
    }
    let mut head = head(random, program.results, program.parts.globals);
    if random.percent(6) {
        damage_head(random, &mut head);
    }
    let mut file = head.assemble(&record);
    match random.below(60) {
        0 => file.truncate(random.below(40)),
        1 => file.resize(LARGEST_RUN_FILE + random.below(2), 0),
        2 => {
            // The record lost or cut close to its start.
            let head_bytes = file.len() - record.len();
            file.truncate(head_bytes + random.below(30));
        }
        _ => {}
    }
    file
}

fn some_program(random: &mut Random) -> Program {
    match random.below(20) {
        0 => {
            let code = instructions::soup(random);
            program::of_code(random, code)
        }
        1 => {
            // Many globals make long pages.
            let mut program = program::usual(random);
            program.parts.globals = random.pick(&[200, 1000, 1024]);
            program
        }
        _ => program::usual(random),
    }
}

fn head(random: &mut Random, results: Vec<u8>, globals: u32) -> Head {
    let most = globals.min(255) as usize;
    let count = match random.below(30) {
        0 => (most + 1).min(255),
        1 => most,
        _ => random.below(most.min(12) + 1),
    };
    let memory = match random.below(20) {
        0 => random.below(40),
        1 => LARGEST_FILE_MEMORY,
        2..=6 => random.within(400..=1200),
        _ => random.within(30..=400),
    };
    let memory = if globals > 100 { memory + globals as usize } else { memory };
    let stack = match random.below(20) {
        0 => random.pick(&[1024, 1025, 65535]),
        1..=3 => random.below(6),
        _ => random.within(6..=300),
    };
    Head {
        magic: *b"TRK\x00\x01",
        results,
        parameters: random.words(count),
        budget: random.pick(&[0, 1, 2, 10, 100, 100, 1000, 1000, 5000]),
        memory_words: memory.min(LARGEST_FILE_MEMORY) as u16,
        stack_words: stack as u16,
    }
}

fn damage_head(random: &mut Random, head: &mut Head) {
    match random.below(5) {
        0 => head.magic[random.below(5)] = random.pick(&[0, 1, 2, b'T', b'R', b'k', 255]),
        1 => head.memory_words = random.pick(&[0, 4096, 4097, 65535]),
        2 => {
            let count = random.pick(&[0, 1, 5, 255]);
            head.results = random.bytes(count);
        }
        3 => {
            let count = random.pick(&[0, 13, 100, 255]);
            head.parameters = random.words(count);
        }
        _ => head.stack_words = random.pick(&[0, 1024, 1025, 65535]),
    }
}
