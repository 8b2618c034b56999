//! The proved machine, loaded and run through the library.

use crate::failure::Failure;
use crate::library::{CALLS, FP, GP, HEIGHT, MODULE, OUTCOME_WORDS, PC, STATE_WORDS};
use crate::record;
use crate::run_file::RunFile;
use crate::set::{Module, Set, FRAME_HEAD_WORDS};
use crate::sheet::Sheet;

/// Ends of a run that are no traps.
pub const FINISHED: u32 = 0;
pub const SPENT: u32 = 1;
/// The trap of an instruction that finds too few words on the stack.
const TOO_FEW_WORDS: u32 = 22;
const MAX_STACK_WORDS: usize = 1_024;

pub struct Machine<'a> {
    set: &'a Set<'a>,
    copy: Vec<u8>,
    pub memory: Vec<u32>,
    stack: Vec<u32>,
    state: [u32; STATE_WORDS],
}

/// How a run ended.
pub struct Outcome {
    pub end: u32,
    pub at: usize,
    pub steps: u32,
    /// The module that the place is in.
    pub module: usize,
}

impl<'a> Machine<'a> {
    /// Loads a set with the parameters and sizes of a run file, or answers the number that refuses
    /// it. Nothing is checked.
    pub fn load(set: &'a Set<'a>, file: &RunFile) -> Result<Machine<'a>, u32> {
        let (memory, stack) = (file.memory_words.into(), file.stack_words.into());
        Machine::with_sizes(set, &file.parameters, memory, stack)
    }

    fn with_sizes(
        set: &'a Set<'a>,
        parameters: &[u32],
        memory_words: usize,
        stack_words: usize,
    ) -> Result<Machine<'a>, u32> {
        let (memory, stack) = (vec![0; memory_words], vec![0; stack_words]);
        let copy = vec![0; set.code_bytes()];
        let mut machine = Machine { set, copy, memory, stack, state: [0; STATE_WORDS] };
        let Machine { copy, memory, stack, state, .. } = &mut machine;
        match set.load(parameters, copy, memory, stack, state) {
            0 => Ok(machine),
            number => Err(number),
        }
    }

    /// Runs for at most a budget. A state that was loaded and run always fits.
    pub fn run(&mut self, budget: u32) -> Result<Outcome, Failure> {
        let Machine { set, copy, memory, stack, state } = self;
        let mut outcome = [0; OUTCOME_WORDS];
        match set.run(budget, copy, memory, stack, state, &mut outcome) {
            0 => {
                let [end, at, steps, module] = outcome;
                Ok(Outcome { end, at: at as usize, steps, module: module as usize })
            }
            number => Err(Failure::Library(number)),
        }
    }

    /// Answers the offset of the next instruction.
    pub fn place(&self) -> usize {
        self.state[PC] as usize
    }

    /// Answers the module that it is in.
    pub fn module(&self) -> usize {
        self.state[MODULE] as usize
    }

    /// Answers where the running procedure's words begin in memory.
    pub fn frame(&self) -> usize {
        self.state[FP] as usize
    }

    pub fn calls(&self) -> u32 {
        self.state[CALLS]
    }

    /// Answers the words on the stack, bottom first.
    pub fn stack(&self) -> &[u32] {
        let height = self.state[HEIGHT] as usize;
        self.stack.get(..height).unwrap_or(&self.stack)
    }
}

/// Counts the stack words that the instruction at an offset of a module has to find, by asking the
/// machine: with fewer it traps 22, before it looks at anything else.
pub fn words_found(set: &Set, module: usize, at: usize) -> usize {
    let frames = set.frames();
    let memory = frames.last().copied().unwrap_or(0);
    let enough = |height: &usize| {
        let fresh = Machine::with_sizes(set, &[], memory, MAX_STACK_WORDS);
        let Ok(mut machine) = fresh else { return true };
        machine.state[PC] = at as u32;
        machine.state[GP] = (frames[module] + FRAME_HEAD_WORDS) as u32;
        machine.state[MODULE] = module as u32;
        machine.state[HEIGHT] = *height as u32;
        !matches!(machine.run(1), Ok(Outcome { end: TOO_FEW_WORDS, .. }))
    };
    (0..MAX_STACK_WORDS).find(enough).unwrap_or(0)
}

/// Tells whether unsigned results wrap with a version table, by asking the machine: where they do
/// not, SUB_U of 0 and 1 traps. None where the table is refused.
pub fn wraps(version: &[u8]) -> Option<bool> {
    let [zero, one, subtract, end] =
        ["LOAD_C.0", "LOAD_C.1", "SUB_U", "RTN"].map(|name| Sheet::get().code_of(name));
    let record = record::from_code(&[0, 2, zero, one, subtract, end], version);
    let set = Set::of(vec![Module { record: &record, results: &[0], library: None }]);
    let mut machine = Machine::with_sizes(&set, &[], 3, 2).ok()?;
    let outcome = machine.run(4).ok()?;
    Some(outcome.end == FINISHED)
}
