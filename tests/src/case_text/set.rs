//! The text of calls over sets of modules (02, K1).

use super::{Hex, List, Numbers, Tokens};
use crate::cases::{Module, SetCall, SetCase, SetWords, Words};
use std::fmt::{self, Display, Formatter};

impl Tokens<'_> {
    /// Reads the rest of a call over a set of modules.
    pub(super) fn set_case(&mut self, verb: &str) -> Result<SetCase, String> {
        let own = if verb == "mcheck" { self.number()? } else { 0 };
        let mut modules = self.modules()?;
        let call = match verb {
            "mcheck" => {
                for module in &mut modules {
                    module.results = self.bytes()?;
                }
                SetCall::Check { own, workspace: self.words()? }
            }
            "mload" => SetCall::Load {
                parameters: self.words()?,
                copy: self.bytes()?,
                memory: self.words()?,
                stack: self.words()?,
            },
            _ => SetCall::Run { budget: self.number()?, machine: self.set_machine()? },
        };
        Ok(SetCase { modules, call })
    }

    /// Reads SET: the number of modules, then SID and record of each.
    fn modules(&mut self) -> Result<Vec<Module>, String> {
        let count: usize = self.number()?;
        let mut module = || {
            let (sid, record) = (self.number()?, self.bytes()?);
            Ok(Module { sid, record, results: vec![] })
        };
        (0..count).map(|_| module()).collect()
    }

    fn set_machine(&mut self) -> Result<SetWords, String> {
        let (module, state, copy) = (self.number()?, self.state()?, self.bytes()?);
        let words = Words { state, memory: self.words()?, stack: self.words()? };
        Ok(SetWords { module, copy, words })
    }
}

impl Display for SetCase {
    fn fmt(&self, f: &mut Formatter) -> fmt::Result {
        let SetCase { modules, call } = self;
        if let SetCall::Check { own, .. } = call {
            write!(f, "{own} ")?;
        }
        write!(f, "{}", modules.len())?;
        for Module { sid, record, .. } in modules {
            write!(f, " {sid} {}", Hex(record))?;
        }
        match call {
            SetCall::Check { workspace, .. } => {
                for Module { results, .. } in modules {
                    write!(f, " {}", Hex(results))?;
                }
                write!(f, " {}", List(workspace))
            }
            SetCall::Load { parameters, copy, memory, stack } => {
                write!(f, " {} {}", List(parameters), Hex(copy))?;
                write!(f, " {} {}", List(memory), List(stack))
            }
            SetCall::Run { budget, machine } => write!(f, " {budget} {machine}"),
        }
    }
}

impl Display for SetWords {
    fn fmt(&self, f: &mut Formatter) -> fmt::Result {
        let SetWords { module, copy, words: Words { state, memory, stack } } = self;
        write!(f, "{module} {} {}", Numbers(state), Hex(copy))?;
        write!(f, " {} {}", List(memory), List(stack))
    }
}

impl Display for Words {
    fn fmt(&self, f: &mut Formatter) -> fmt::Result {
        write!(f, "{} {} {}", Numbers(&self.state), List(&self.memory), List(&self.stack))
    }
}
