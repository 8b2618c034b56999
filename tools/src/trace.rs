//! `icode trace`: the run of a run file, step by step. Each step is a run of the proved machine
//! with a budget of 1, and nothing of it is kept, so that a trace may be as long as the run.

mod rows;

use crate::arguments::{Arguments, Flag, LIBRARY};
use crate::bytes::WordForm;
use crate::command::Command;
use crate::failure::{about, Failure, Status};
use crate::libraries::Libraries;
use crate::machine::{Machine, Outcome, SPENT};
use crate::outcome::Ended;
use crate::output::Output;
use crate::run_file::RunFile;
use crate::set::Set;
use crate::verdict::{split_run_file, Verdict};
use crate::{input, record};
use rows::Rows;
use std::ffi::OsStr;
use std::io::Write;

pub const COMMAND: Command = Command {
    name: "trace",
    summary: "shows the run of a run file step by step",
    usage: USAGE,
    help: HELP,
    flags: &[
        Flag { name: "--from", value: Some("N") },
        Flag { name: "--steps", value: Some("N") },
        Flag { name: "--signed", value: None },
        Flag { name: "--both", value: None },
        LIBRARY,
    ],
    run,
};

const USAGE: &str =
    "icode trace [--from N] [--steps N] [--signed | --both] [--library SID=FILE].. FILE";

const HELP: &str = "\
Checks and loads a run file (- is standard input), then runs it a step at a time. For each step:

  step         counted from 1; * for one that trapped, which is not counted and changed nothing
  calls        active before it
  module       with libraries only: 0 for FILE, 1, 2, .. for the libraries as given
  offset       of the instruction in the code
  line         in the source, with its first and last code offset; 0 where there is none
  instruction
  stack        after it, bottom first, - where it is empty

Below stand the memory words that the step changed. The last line is that of the page, and a
sentence on standard error says what happened.

  --from N            show from step N on; the steps before are taken without being shown
  --steps N           show N steps, then stop, though the run has not ended
  --signed            words as signed numbers
  --both              words as unsigned and signed numbers where these differ, such as
                      4294967290/-6
  --library SID=FILE  lend a run file as the library SID, as icode page does
";

fn run(arguments: &Arguments, out: &mut Output) -> Result<Status, Failure> {
    let usage = |fault| Failure::Usage(fault, USAGE);
    let name = arguments.one_file().map_err(usage)?;
    let from = arguments.number("--from").map_err(usage)?.unwrap_or(1).max(1);
    let steps = arguments.number("--steps").map_err(usage)?.unwrap_or(u32::MAX);
    let form = match (arguments.has("--signed"), arguments.has("--both")) {
        (true, true) => return Err(usage("--signed and --both exclude each other".to_string())),
        (true, false) => WordForm::Signed,
        (false, true) => WordForm::Both,
        (false, false) => WordForm::Unsigned,
    };
    let libraries = Libraries::read(arguments, USAGE)?;
    let bytes = input::read(name, record::MAX_BYTES)?;
    let file = split_run_file(name, &bytes)?;
    let verdict = Verdict::of(file.record, Some(file.results), Some(&file), &libraries);
    if !verdict.is_accepted() {
        return Err(Failure::Refused(name.to_owned(), verdict.refusal()));
    }
    let set = Set::new(file.record, file.results, &libraries);
    let machine = Machine::load(&set, &file).map_err(Failure::Library)?;
    let rows = Rows::new(&set, machine, form).ok_or(Failure::Library(0))?;
    Trace { name, file: &file, from, last: (from - 1).saturating_add(steps) }.run(out, rows)
}

struct Trace<'a> {
    name: &'a OsStr,
    file: &'a RunFile<'a>,
    /// The first and the last step to be shown.
    from: u32,
    last: u32,
}

impl Trace<'_> {
    /// Skips steps, shows the wanted ones, and says how the run ended or that it did not.
    fn run(&self, out: &mut Output, mut rows: Rows) -> Result<Status, Failure> {
        let budget = self.file.budget;
        let mut outcome = rows.machine.run(budget.min(self.from - 1))?;
        let mut done = outcome.steps;
        rows.print_head(out)?;
        if outcome.end == SPENT && 0 < done && done < budget {
            rows.print_stack(out, self.from)?;
        }
        while outcome.end == SPENT && done < budget.min(self.last) {
            outcome = rows.step(out, done + 1)?;
            done += outcome.steps;
        }
        if outcome.end == SPENT && done < budget {
            writeln!(out, "stopped after step {done}, as --steps asks")?;
            return Ok(Status::Done);
        }
        self.print_end(out, &rows, &outcome, done)
    }

    /// Prints the page's line about the end, and the sentence for people.
    fn print_end(
        &self,
        out: &mut Output,
        rows: &Rows,
        outcome: &Outcome,
        steps: u32,
    ) -> Result<Status, Failure> {
        let ended = Ended::new(rows.set, outcome, steps, rows.machine.stack());
        writeln!(out, "{}", ended.line_text())?;
        out.say(&about(self.name, &ended.sentence(rows.set, self.file, rows.form)))?;
        Ok(ended.status())
    }
}
