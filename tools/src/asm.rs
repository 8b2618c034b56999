//! `icode asm`: a record or a run file from text.

mod build;
mod directives;
mod encode;
mod layout;
mod parse;
mod program;
mod switch;
mod tokens;

use crate::arguments::{Arguments, Flag, LIBRARY};
use crate::command::Command;
use crate::destination::Destination;
use crate::failure::{shown, Failure, Status};
use crate::input;
use crate::libraries::Libraries;
use crate::output::Output;
use crate::pictures::NO_PICTURE;
use crate::verdict::{split_run_file, Verdict};
use build::Built;
use program::TextFault;
use std::ffi::OsStr;

/// Longer than the text of any record that is accepted, with room for comments.
const MAX_TEXT_BYTES: usize = 4 << 20;
/// Faults that are shown before the rest is only counted.
const MAX_FAULTS: usize = 20;

pub const COMMAND: Command = Command {
    name: "asm",
    summary: "makes a record or a run file from text",
    usage: USAGE,
    help: HELP,
    flags: &[
        Flag { name: "-o", value: Some("OUT") },
        Flag { name: "--no-check", value: None },
        LIBRARY,
    ],
    run,
};

const USAGE: &str = "icode asm [--no-check | --library SID=FILE ..] [-o OUT] FILE";

const HELP: &str = "\
Makes a record or a run file from text (- is standard input), and writes it to OUT or to standard
output. Each line has one of these; ; begins a comment:

  .globals N            words of globals
  .constants WORD ..    words of the constants
  .version \"12/B\" ..    words of the version table, as four characters or numbers; where the first
                        names an issue before 3/-, unsigned add, subtract and multiply wrap
  .import SID ..        libraries, by their SIDs: library 1, 2, .. of the external instructions
  .relocation N ..      the relocation table as it is; without it, it has the library byte of every
                        external instruction
  .results N ..         result words of each procedure from 0 on, else 0 for each; a record is
                        checked with them, but does not hold them
  .parameters WORD ..   the run file's parameters
  .budget N             its budget, in steps
  .memory N             its memory, in words
  .stack N              its stack, in words
  .procedure N [NAME]   begins procedure N; the order in the text is free
  .line N               source line from the next instruction on
  .line N at OFFSET     source line from an offset of the code on
  .bytes N ..           bytes of code as they are
  NAME:                 a label of the procedure; an instruction may follow
  LOAD_C.h 1000         an instruction, with its operands as icode list shows them
  JUMP.b NAME           to a label, or a distance such as +2 or -8; ITER likewise
  CALL.b NAME           of a procedure by its name or number
  CALL_E 1, 2           of procedure 2 of library 1; LOAD_E, LOAD_A_E and STOR_E likewise, of a global
  SWITCH                then its rows, one in a line:
    exit -> NAME          where LEAVE goes
    else -> NAME          for every other value
    0 -> NAME             for each value from 0 on; for SWITCH_X ranges such as
    -2 .. 5 -> NAME       (NAME or else)

A text with .budget, .memory and .stack is that of a run file. Numbers are decimal, or hex with 0x.
What is made is checked, and loaded too if it is a run file. Where it is refused, nothing is
written.

  -o OUT              write to a file
  --no-check          write it unchecked, to look at a refusal, or without its libraries
  --library SID=FILE  check it with a run file as the library SID; may be given up to 15 times
";

fn run(arguments: &Arguments, out: &mut Output) -> Result<Status, Failure> {
    let usage = |fault: String| Failure::Usage(fault, USAGE);
    let name = arguments.one_file().map_err(usage)?;
    let to = Destination::of(arguments.value("-o")).map_err(usage)?;
    if to.is(name) {
        return Err(usage("OUT is the text itself".to_string()));
    }
    let libraries = Libraries::read(arguments, USAGE)?;
    let built = assemble(name, arguments.has("--no-check"), &libraries)?;
    to.write(out, &built.bytes)?;
    Ok(Status::Done)
}

fn assemble(name: &OsStr, unchecked: bool, libraries: &Libraries) -> Result<Built, Failure> {
    let bytes = input::read(name, MAX_TEXT_BYTES)?;
    if bytes.len() > MAX_TEXT_BYTES {
        let why = "longer than 4,194,304 bytes, more than any text needs";
        return Err(Failure::Refused(name.to_owned(), why.to_string()));
    }
    let faulty = |faults| Failure::Text(describe(name, faults));
    let text = String::from_utf8_lossy(&bytes);
    // Some editors put a byte order mark before a text.
    let text = text.strip_prefix('\u{feff}').unwrap_or(&text);
    let program = parse::parse(text).map_err(faulty)?;
    let built = build::build(&program).map_err(faulty)?;
    if !unchecked {
        check(name, &built, libraries)?;
    }
    Ok(built)
}

/// Puts the faults in the order of the text, each with file and line.
fn describe(name: &OsStr, mut faults: Vec<TextFault>) -> Vec<String> {
    faults.sort_by_key(|fault| fault.line);
    let name = shown(name);
    let shown = faults.iter().take(MAX_FAULTS);
    let mut lines: Vec<String> =
        shown.map(|TextFault { line, text }| format!("{name}:{line}: {text}")).collect();
    if faults.len() > MAX_FAULTS {
        lines.push(format!("{name}: {} more", faults.len() - MAX_FAULTS));
    }
    lines
}

/// Refuses what check and load refuse, at the line of the text that is behind it.
fn check(name: &OsStr, built: &Built, libraries: &Libraries) -> Result<(), Failure> {
    let file = match built.is_run_file {
        true => Some(split_run_file(name, &built.bytes)?),
        false => None,
    };
    let record = file.as_ref().map_or(&built.bytes[..], |file| file.record);
    let verdict = Verdict::of(record, Some(&built.results), file.as_ref(), libraries);
    if verdict.is_accepted() {
        return Ok(());
    }
    let text = verdict.refusal();
    let lines = if verdict.number == NO_PICTURE { &built.procedure_lines } else { &built.lines };
    let behind = verdict.place().and_then(|at| lines.range(..=at).next_back());
    Err(match behind {
        Some((_, &line)) => Failure::Text(describe(name, vec![TextFault { line, text }])),
        None => Failure::Refused(name.to_owned(), text),
    })
}
