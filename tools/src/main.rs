//! The program for people who work with I-Code: `list` shows a record or a run file, `asm` makes
//! one from text, `trace` shows its run step by step, `page` prints its page, `mend` mends its
//! tables. The proved library decodes, checks, loads, runs and mends; nothing of that is done here.

#![deny(unsafe_code)]

mod arguments;
mod command;
mod destination;
mod failure;
mod files;
mod identity;
mod input;
#[allow(unsafe_code)]
mod limit;
mod output;
#[allow(unsafe_code)]
mod standard;

mod bytes;
mod libraries;
mod library;
mod meaning;

mod code;
mod instruction;
mod record;
mod run_file;
mod set;
mod sheet;
mod switch_table;

mod blame;
mod faults;
mod judged;
mod linkage;
mod machine;
mod outcome;
mod pictures;
mod record_faults;
mod verdict;

mod asm;
mod list;
mod mend;
mod page;
mod trace;

use command::{run_program, Command};
use output::{complain, Output};
use std::env;
use std::io::Write;
use std::process::ExitCode;

const COMMANDS: [Command; 5] =
    [list::COMMAND, asm::COMMAND, trace::COMMAND, page::COMMAND, mend::COMMAND];

fn main() -> ExitCode {
    limit::outlive();
    let mut out = Output::open();
    let done = run_program(&COMMANDS, env::args_os().skip(1), &mut out);
    let flushed = out.flush();
    let status = match done.and_then(|status| Ok(flushed.map(|()| status)?)) {
        Ok(status) => status,
        Err(failure) => {
            complain(&failure.message());
            failure.status()
        }
    };
    ExitCode::from(status as u8)
}
