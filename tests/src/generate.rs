//! Random records, programs, sets of modules, states and run files.

pub mod assembler;
mod body;
pub mod damage;
mod expression;
mod external;
mod flow;
pub mod instructions;
mod misuse;
pub mod program;
pub mod record;
pub mod run_file;
pub mod set;
pub mod state;
