//! Calls over sets of modules (02, K1). Every buffer is lent between guard words.

use super::{Answer, Words};
use crate::guarded::Guarded;
use crate::interface::{lent, Interface, ROW, SET_OUTCOME_WORDS, SET_STATE_WORDS, STATE_WORDS};
use crate::set::Lent;

pub type SetOutcome = [u32; SET_OUTCOME_WORDS];

/// Stand around the lent buffers.
const GUARD_BYTE: u8 = 0xa5;
const GUARD_HALF: u16 = 0xa5a5;
const GUARD: u32 = 0xa5a5_a5a5;

/// A module as lent; the main one's SID counts for nothing.
#[derive(Clone, Debug, Default, PartialEq, Eq)]
pub struct Module {
    pub sid: u32,
    pub record: Vec<u8>,
    /// Looked at by the check alone.
    pub results: Vec<u8>,
}

impl Module {
    pub fn lend(&self) -> Lent<'_> {
        Lent { sid: self.sid, record: &self.record, results: &self.results }
    }
}

#[derive(Clone, Debug, PartialEq, Eq)]
pub struct SetCase {
    pub modules: Vec<Module>,
    pub call: SetCall,
}

/// A call, but for the modules.
#[derive(Clone, Debug, PartialEq, Eq)]
pub enum SetCall {
    Check { own: u32, workspace: Vec<u16> },
    Load { parameters: Vec<u32>, copy: Vec<u8>, memory: Vec<u32>, stack: Vec<u32> },
    Run { budget: u32, machine: SetWords },
}

/// What a machine over a set keeps between runs.
#[derive(Clone, Debug, PartialEq, Eq)]
pub struct SetWords {
    /// The module that PC counts in.
    pub module: u32,
    pub copy: Vec<u8>,
    pub words: Words,
}

/// A set as C takes it: records and results lists one after another, and the directory.
#[derive(Clone, Debug, Default)]
pub struct Directed {
    pub records: Vec<u8>,
    pub results: Vec<u8>,
    pub directory: Vec<u32>,
}

impl Directed {
    pub fn new(modules: &[Module]) -> Directed {
        let mut directed = Directed::default();
        for Module { sid, record, results } in modules {
            directed.records.extend(record);
            directed.results.extend(results);
            // The halfwords of a workspace are for the calls that take all of them.
            let row: [u32; ROW] = [*sid, record.len() as u32, results.len() as u32, 0];
            directed.directory.extend(row);
        }
        directed
    }

    /// Gives the modules that it stands for.
    pub fn modules(&self) -> Vec<Module> {
        let lent = lent(&self.records, &self.results, &self.directory).into_iter();
        let own = |Lent { sid, record, results }: Lent| Module {
            sid,
            record: record.to_vec(),
            results: results.to_vec(),
        };
        lent.map(own).collect()
    }
}

impl SetCase {
    pub fn answer(&self, library: &Interface) -> Answer {
        self.call.answer(&Directed::new(&self.modules), library)
    }
}

impl SetCall {
    pub fn verb(&self) -> &'static str {
        match self {
            SetCall::Check { .. } => "mcheck",
            SetCall::Load { .. } => "mload",
            SetCall::Run { .. } => "mrun",
        }
    }

    /// Gives the answer of an implementation.
    pub fn answer(&self, set: &Directed, library: &Interface) -> Answer {
        match self {
            SetCall::Check { own, workspace } => {
                let mut workspace = Guarded::new(workspace, GUARD_HALF);
                let Directed { records, results, directory } = set;
                let number =
                    (library.set_check)(records, results, directory, *own, workspace.lent());
                Answer::SetCheck { number, workspace: workspace.left() }
            }
            SetCall::Load { parameters, copy, memory, stack } => {
                let words =
                    Words { state: [0; STATE_WORDS], memory: memory.clone(), stack: stack.clone() };
                let mut lent = LentMachine::new(&SetWords { module: 0, copy: copy.clone(), words });
                let number = lent.load(set, parameters, library);
                Answer::SetLoad { number, machine: lent.left() }
            }
            SetCall::Run { budget, machine } => {
                let mut lent = LentMachine::new(machine);
                let ended = lent.run(set, *budget, library);
                Answer::SetRun { ended, machine: lent.left() }
            }
        }
    }
}

/// A machine over a set as it is lent.
struct LentMachine {
    copy: Guarded<u8>,
    memory: Guarded<u32>,
    stack: Guarded<u32>,
    state: Guarded<u32>,
}

impl LentMachine {
    fn new(machine: &SetWords) -> LentMachine {
        let SetWords { module, copy, words: Words { state, memory, stack } } = machine;
        let state: [u32; SET_STATE_WORDS] =
            std::array::from_fn(|at| state.get(at).copied().unwrap_or(*module));
        LentMachine {
            copy: Guarded::new(copy, GUARD_BYTE),
            memory: Guarded::new(memory, GUARD),
            stack: Guarded::new(stack, GUARD),
            state: Guarded::new(&state, GUARD),
        }
    }

    fn load(&mut self, set: &Directed, parameters: &[u32], library: &Interface) -> u32 {
        (library.set_load)(
            &set.records,
            &set.directory,
            parameters,
            self.copy.lent(),
            self.memory.lent(),
            self.stack.lent(),
            self.state.lent(),
        )
    }

    fn run(&mut self, set: &Directed, budget: u32, library: &Interface) -> Result<SetOutcome, u32> {
        let before = [u32::MAX; SET_OUTCOME_WORDS];
        let mut outcome = Guarded::new(&before, GUARD);
        let number = (library.set_run)(
            &set.records,
            &set.directory,
            budget,
            self.copy.lent(),
            self.memory.lent(),
            self.stack.lent(),
            self.state.lent(),
            outcome.lent(),
        );
        let outcome = outcome.left();
        match (number, <SetOutcome>::try_from(&outcome[..])) {
            (0, Ok(outcome)) => Ok(outcome),
            // A refused run leaves the outcome as it was, too.
            (1.., Ok(outcome)) if outcome == before => Err(number),
            _ => panic!("refused with {number}, but wrote outcome {outcome:?}"),
        }
    }

    fn left(self) -> SetWords {
        let LentMachine { copy, memory, stack, state } = self;
        let state = state.left();
        let module = state[STATE_WORDS];
        let state = std::array::from_fn(|at| state[at]);
        let words = Words { state, memory: memory.left(), stack: stack.left() };
        SetWords { module, copy: copy.left(), words }
    }
}
