//! `icode mend`: a record or a run file without what refuses its record with 5 or 6, and what that
//! was.

mod dropped;

use crate::arguments::{Arguments, Flag, LIBRARY, RESULTS};
use crate::bytes::counted;
use crate::command::Command;
use crate::destination::Destination;
use crate::failure::{escaped, Failure, Status};
use crate::files;
use crate::identity;
use crate::input;
use crate::judged::Judged;
use crate::libraries::Libraries;
use crate::library::{self, Mended};
use crate::output::{self, Output};
use crate::record::Record;
use std::ffi::OsStr;
use std::fs;
use std::io::{self, Write};
use std::path::Path;

pub const COMMAND: Command = Command {
    name: "mend",
    summary: "drops what refuses a record with 5 or 6, and says what that was",
    usage: USAGE,
    help: HELP,
    flags: &[
        Flag { name: OUT, value: Some("OUT") },
        Flag { name: IN_PLACE, value: None },
        Flag { name: DRY_RUN, value: None },
        RESULTS,
        LIBRARY,
    ],
    run,
};

const OUT: &str = "-o";
const IN_PLACE: &str = "--in-place";
const DRY_RUN: &str = "--dry-run";

/// Stands behind the name of the mended file where no other is asked for.
const ENDING: &str = ".mended";

const USAGE: &str = "icode mend [-o OUT | --in-place | --dry-run] [--results DIGITS] \
                     [--library SID=FILE].. FILE";

const HELP: &str = "\
Mends what refuses a record, or the record in a run file, with 5 or 6 (- is standard input):

  version table  loses all its words where the first is malformed (5)
  source table   loses its last word where it has an odd number of them; then, from the front, every
                 pair whose offset is not below the code size or not above the last kept one (6)

Their sizes in the header follow. All else stays byte for byte, and so does the head of a run file.
Prints each dropped word, with its byte in the old record and the number that refuses it, and what
check and load say before and after; then writes the mended file. It may still be refused, by 7 or
a later number: it is written all the same, and the exit status is 1. What is refused with 1, 2, 3
or 16 cannot be mended.

The mended file is FILE.mended, which must not exist; where nothing is dropped, none is written.
One of these asks for something else:

  -o OUT            write it to OUT, over what is there, unless OUT is FILE or has what is printed;
                    -o - is standard output, and then the rest goes to standard error
  --in-place        write it over FILE; where nothing is dropped, FILE is left alone
  --dry-run         write nothing

  --results DIGITS    how many result words each procedure leaves, from procedure 0 on, such as 001;
                      else the run file's list. Without it a record alone is judged with all
                      results 0
  --library SID=FILE  judge it with a run file as the library SID; may be given up to 15 times
";

fn run(arguments: &Arguments, out: &mut Output) -> Result<Status, Failure> {
    let usage = |fault| Failure::Usage(fault, USAGE);
    let name = arguments.one_file().map_err(usage)?;
    let to = destination(arguments, name).map_err(usage)?;
    let results = arguments.results().map_err(usage)?;
    keep_apart(to.as_ref(), name).map_err(usage)?;
    let libraries = Libraries::read(arguments, USAGE)?;
    let old = input::read_any(name)?;
    let before = Judged::of(name, &old, results.as_deref(), &libraries)?;
    let mended = library::mend(before.record).map_err(|_| before.refused(name))?;
    let new = [before.head(), &mended.record].concat();
    let after = Judged::of(name, &new, results.as_deref(), &libraries)?;
    let report = describe(&before, &mended, &after);
    match to {
        None => writeln!(out, "{report}nothing is written, as {DRY_RUN} asks")?,
        Some(Destination::New(_) | Destination::InPlace(_)) if mended.places.is_empty() => {
            writeln!(out, "{report}nothing is written, since nothing is dropped")?;
        }
        Some(to) => write(out, &to, &report, &new)?,
    }
    Ok(after.verdict.status())
}

/// Finds where the mended file goes: nowhere in a dry run.
fn destination<'a>(
    arguments: &'a Arguments,
    name: &'a OsStr,
) -> Result<Option<Destination<'a>>, String> {
    let asked = |option: &&str| arguments.has(option);
    match [OUT, IN_PLACE, DRY_RUN].into_iter().filter(asked).collect::<Vec<_>>()[..] {
        [DRY_RUN] => Ok(None),
        [OUT] => {
            let to = Destination::of(arguments.value(OUT))?;
            match to.is(name) {
                true => Err(format!("OUT is FILE itself; {IN_PLACE} writes over it")),
                false => Ok(Some(to)),
            }
        }
        [IN_PLACE] if name == "-" => Err("standard input cannot be written in place".to_string()),
        [IN_PLACE] if files::is_no_place(Path::new(name)) => {
            let why = "FILE is no regular file under a name of its own";
            Err(format!("{why}, and cannot be written in place"))
        }
        [IN_PLACE] => Ok(Some(Destination::InPlace(name))),
        [] if name == "-" => {
            let why = format!("standard input has no name to add {ENDING} to");
            Err(format!("{why}; it needs -o OUT or {DRY_RUN}"))
        }
        [] => {
            let beside = [name, OsStr::new(ENDING)].into_iter().collect();
            Ok(Some(Destination::New(beside)))
        }
        _ => Err(format!("{OUT}, {IN_PLACE} and {DRY_RUN} exclude each other")),
    }
}

/// Refuses to print what is dropped into FILE or among the bytes of the mended file.
fn keep_apart(to: Option<&Destination>, name: &OsStr) -> Result<(), String> {
    let (stream, printed) = match to {
        Some(Destination::Standard) => ("standard error", identity::stream(io::stderr())),
        _ => ("standard output", identity::stream(io::stdout())),
    };
    let what = match to {
        _ if identity::is_damaged(identity::read(name), printed) => "FILE",
        Some(to) if identity::is_mixed(printed, to.found()) => "the mended file",
        _ => return Ok(()),
    };
    Err(format!("{stream} is {what} itself, and what is dropped would be printed there"))
}

impl<'a> Judged<'a> {
    /// Cuts off what stands before the record.
    fn head(&self) -> &'a [u8] {
        &self.bytes[..self.bytes.len() - self.record.len()]
    }

    fn size_text(&self) -> String {
        let len = |bytes: &[u8]| counted(bytes.len(), "byte", "bytes");
        match &self.file {
            Some(_) => format!(
                "run file, {}, with a record of {} from byte {} on",
                len(self.bytes),
                len(self.record),
                self.head().len()
            ),
            None => format!("record, {}", len(self.bytes)),
        }
    }

    /// Says whether it is accepted. From 9 on the numbers go by the results, so that it also says
    /// where nobody gave these.
    fn verdict_text(&self) -> String {
        let text = match self.verdict.is_accepted() {
            true => "accepted".to_string(),
            false => self.verdict.refusal(),
        };
        match self.verdict.number {
            0 | 9.. if self.results.is_none() => {
                format!("{text} (all results taken as 0; {} gives others)", RESULTS.name)
            }
            _ => text,
        }
    }
}

/// Says what the file was, what is dropped, and what it is now.
fn describe(before: &Judged, mended: &Mended, after: &Judged) -> String {
    let rows = match Record::split(before.record) {
        Ok(record) => dropped::rows(&record, &mended.places),
        Err(_) => Vec::new(),
    };
    let dropped = match rows.len() {
        0 => "nothing is dropped".to_string(),
        count => {
            let words = counted(count, "word is", "words are");
            let columns = "byte in the record, number that refuses it, what it was";
            format!("{words} dropped ({columns}):\n{}", rows.join("\n"))
        }
    };
    format!(
        "before: {}\n  {}\n{dropped}\nafter: {}\n  {}\n",
        before.size_text(),
        before.verdict_text(),
        after.size_text(),
        after.verdict_text()
    )
}

/// Prints what is dropped, which nothing may show any more afterwards, then writes the new file.
fn write(out: &mut Output, to: &Destination, report: &str, new: &[u8]) -> Result<(), Failure> {
    let Some(name) = to.name() else {
        output::report(report).map_err(Failure::Unsaid)?;
        return to.write(out, new);
    };
    if matches!(to, Destination::New(_)) && fs::symlink_metadata(name).is_ok() {
        let why = "it exists; -o OUT names another file, and --in-place writes over FILE";
        return Err(Failure::UnwritableFile(name.to_owned(), io::Error::other(why)));
    }
    write!(out, "{report}")?;
    out.flush()?;
    to.write(out, new)?;
    writeln!(out, "written to {}", escaped(name))?;
    Ok(())
}
