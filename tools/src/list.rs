//! `icode list`: a record or a run file for people: its parts, and its code with offsets, source
//! lines, mnemonics and bytes. Beside each instruction stand the height of its procedure's share of
//! the stack and the topmost label, as the check's workspace shows them. What a refusal or a trap
//! is about has a mark.

mod marks;
mod parts;
mod rows;
mod text;

use crate::arguments::{Arguments, Flag, LIBRARY, RESULTS};
use crate::command::Command;
use crate::failure::{Failure, Status};
use crate::input;
use crate::judged::Judged;
use crate::libraries::Libraries;
use crate::meaning::meaning;
use crate::outcome::{self, Ended, Page};
use crate::output::Output;
use crate::record::Record;
use crate::set::Set;
use marks::Marks;
use rows::Listing;
use std::io::{self, Write};

pub const COMMAND: Command = Command {
    name: "list",
    summary: "shows a record or a run file, with the place behind a refusal or a trap",
    usage: USAGE,
    help: HELP,
    flags: &[Flag { name: "--asm", value: None }, RESULTS, LIBRARY],
    run,
};

const USAGE: &str = "icode list [--asm] [--results DIGITS] [--library SID=FILE].. FILE";

const HELP: &str = "\
Shows a record or a run file (- is standard input): its parts, the libraries that it imports, whether
unsigned results wrap by its issue, what check and load say of it, then its code. For each
instruction:

  offset  of its first byte in the code
  line    in the source, 0 where the source table has none
  height  words and labels that its procedure has on the stack before it, - where it is not reached
  label   offset of the ITER or SWITCH that pushed the topmost label, - where there is none

A run file is run as it stands. Before the offset there may be a mark:

  *  the run trapped here
  >  belongs to the source line of the trap
  !  is behind the refusal: each instruction that breaks the rule of 10 to 14 or 18; for 15 every
     one of a procedure that has no stack picture

  --asm               print the text that makes this file, for icode asm; nothing is run. The columns
                      above are not in it, and jumps lead to labels
  --results DIGITS    how many result words each procedure leaves, from procedure 0 on, such as 001;
                      else the run file's list, or 0 for each
  --library SID=FILE  check and run it with a run file as the library SID, as icode page does
";

fn run(arguments: &Arguments, out: &mut Output) -> Result<Status, Failure> {
    let usage = |fault| Failure::Usage(fault, USAGE);
    let name = arguments.one_file().map_err(usage)?;
    let results = arguments.results().map_err(usage)?;
    let libraries = Libraries::read(arguments, USAGE)?;
    let bytes = input::read_any(name)?;
    let listed = Judged::of(name, &bytes, results.as_deref(), &libraries)?;
    if arguments.has("--asm") {
        let record = Record::split(listed.record).ok().filter(|record| record.number == 0);
        text::print(out, &listed, &record.ok_or_else(|| listed.refused(name))?)?;
        return Ok(listed.verdict.status());
    }
    Ok(listed.print(out, &libraries)?)
}

impl Judged<'_> {
    fn print(&self, out: &mut Output, libraries: &Libraries) -> io::Result<Status> {
        if let Some(file) = &self.file {
            parts::print_head(out, file, self.bytes.len())?;
        }
        let split = Record::split(self.record);
        parts::print_sizes(out, self.record)?;
        if let Ok(record) = &split {
            parts::print_imports(out, record, libraries)?;
            parts::print_tables(out, record, self.results.is_none())?;
        }
        self.print_verdict(out)?;
        let ended = self.file.as_ref().and_then(|_| run_end(self.bytes, libraries));
        let set = Set::new(self.record, &[], libraries);
        let marks = Marks::new(&self.verdict, &set, ended.as_ref());
        marks.print_end(out)?;
        match &split {
            Ok(record) if record.number == 0 => {
                let workspace = &self.verdict.workspace;
                Listing { record, workspace, marks: &marks }.print(out)?;
            }
            Ok(record) => rows::print_uncut(out, record.code)?,
            Err(_) => {}
        }
        let run = ended.map_or(Status::Done, |ended| ended.status());
        Ok(self.verdict.status().max(run))
    }

    fn print_verdict(&self, out: &mut Output) -> io::Result<()> {
        let number = self.verdict.number;
        if number == 0 {
            return writeln!(out, "check 0: accepted");
        }
        writeln!(out, "check {number}: {}", meaning(number))?;
        writeln!(out, "  {}", self.verdict.reason)?;
        if self.file.is_none() && Record::split(self.record).is_err() {
            writeln!(out, "  it is no run file: it does not begin with TRK")?;
        }
        Ok(())
    }
}

/// Runs a run file; none where it is refused.
fn run_end(run_file: &[u8], libraries: &Libraries) -> Option<Ended> {
    match Page::read(&outcome::page(run_file, libraries))? {
        Page::Ended(ended) => Some(ended),
        Page::Refused(_) => None,
    }
}
