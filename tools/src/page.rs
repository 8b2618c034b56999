//! `icode page`: the page of each run file, and a sentence about it for people.

use crate::arguments::{Arguments, Flag, LIBRARY};
use crate::bytes::WordForm;
use crate::command::Command;
use crate::failure::{about, shown, Failure, Status};
use crate::libraries::Libraries;
use crate::outcome::{self, Page};
use crate::output::Output;
use crate::run_file::RunFile;
use crate::set::Set;
use crate::verdict::{refusal, Verdict};
use crate::{input, record};
use std::ffi::OsStr;
use std::io::Write;

pub const COMMAND: Command = Command {
    name: "page",
    summary: "prints the page of each run file, and says what happened",
    usage: USAGE,
    help: HELP,
    flags: &[Flag { name: "--signed", value: None }, LIBRARY],
    run,
};

const USAGE: &str = "icode page [--signed] [--library SID=FILE].. FILE..";

const HELP: &str = "\
Checks, loads and runs each run file (- is standard input) and prints its page:

  check 0                       the record is accepted; else its number, and nothing more
  end 30 at 10 line 12 steps 6  the end: 0 finished, 1 spent, or the trap; at which code offset and
                                source line; completed steps
  s 1000 0                      the words on the stack, bottom first
  g 7216 7216 0 0               the globals

With several files a line ==> FILE <== stands before each page. A sentence on standard error says
what happened, at which source line and with which words.

  --signed            words of the stack and globals as signed numbers; without it, and without
                      libraries, the page is byte for byte the printer's
  --library SID=FILE  lend the record and the results list of a run file as the library SID, decimal
                      or hex with 0x; may be given up to 15 times. Then the line of the end also has
                      the module that it is in: 0 for FILE, 1, 2, .. for the libraries as given
";

fn run(arguments: &Arguments, out: &mut Output) -> Result<Status, Failure> {
    let usage = |fault: &str| Failure::Usage(fault.to_string(), USAGE);
    let files = &arguments.files;
    if files.is_empty() {
        return Err(usage("no file is given"));
    }
    let libraries = Libraries::read(arguments, USAGE)?;
    let form = if arguments.has("--signed") { WordForm::Signed } else { WordForm::Unsigned };
    let mut worst = Status::Done;
    for name in files {
        let status = match input::read(name, record::MAX_BYTES) {
            Ok(bytes) => {
                if files.len() > 1 {
                    writeln!(out, "==> {} <==", shown(name))?;
                }
                print_page(out, name, &bytes, form, &libraries)?
            }
            Err(failure) => {
                out.say(&failure.message())?;
                failure.status()
            }
        };
        worst = worst.max(status);
    }
    Ok(worst)
}

fn print_page(
    out: &mut Output,
    name: &OsStr,
    bytes: &[u8],
    form: WordForm,
    libraries: &Libraries,
) -> Result<Status, Failure> {
    let page = outcome::page(bytes, libraries);
    match form {
        WordForm::Unsigned => out.write_all(&page)?,
        _ => out.write_all(in_form(&page, form).as_bytes())?,
    }
    let (status, sentence) = match (Page::read(&page), RunFile::split(bytes)) {
        (Some(Page::Ended(ended)), Ok(file)) => {
            let set = Set::new(file.record, file.results, libraries);
            (ended.status(), ended.sentence(&set, &file, form))
        }
        (Some(Page::Refused(number)), Ok(file)) => {
            let verdict = Verdict::of(file.record, Some(file.results), Some(&file), libraries);
            (Status::NotDone, refusal(number, &verdict.reason))
        }
        (Some(Page::Refused(number)), Err(rule)) => (Status::NotDone, refusal(number, rule)),
        _ => (Status::Trouble, "the library gave no page".to_string()),
    };
    out.say(&about(name, &sentence))?;
    Ok(status)
}

/// Writes the words of a page's lists in another form.
fn in_form(page: &[u8], form: WordForm) -> String {
    let mut text = String::new();
    for line in String::from_utf8_lossy(page).lines() {
        let mut words = line.split(' ');
        let first = words.next().unwrap_or_default();
        text.push_str(first);
        for word in words {
            let number = if matches!(first, "s" | "g") { word.parse().ok() } else { None };
            let shown = number.map_or(word.to_string(), |number| form.text(number));
            text.push_str(&format!(" {shown}"));
        }
        text.push('\n');
    }
    text
}
