//! The papers' worked cases and the stored vectors (call cases and pages), held to an
//! implementation.

use crate::cases::{page, Case};
use crate::interface::Interface;
use crate::report::RunFile;
use crate::worked_cases;
use std::collections::BTreeMap;
use std::fs;
use std::path::{Path, PathBuf};
use std::process::ExitCode;

const AGREES: &str = "as in the papers";
/// Differences that are printed in full.
const SHOWN: usize = 5;

#[derive(Default)]
struct Counts {
    passed: usize,
    different: usize,
}

/// Counts by verb, and the differences.
#[derive(Default)]
struct Findings {
    counts: BTreeMap<&'static str, Counts>,
    differences: usize,
}

impl Findings {
    fn note(&mut self, verb: &'static str, name: &str, expected: &str, found: &str) {
        let counts = self.counts.entry(verb).or_default();
        if found == expected {
            counts.passed += 1;
        } else {
            counts.different += 1;
            self.differences += 1;
            if self.differences <= SHOWN {
                println!("{verb} {name}\n  expected {expected:.400}\n  found    {found:.400}");
            }
        }
    }
}

/// The program: runs the vectors of the folder that the argument names.
pub fn main(library: &Interface) -> ExitCode {
    let Some(folder) = std::env::args_os().nth(1) else {
        eprintln!("argument: the folder of the vectors");
        return ExitCode::FAILURE;
    };
    match run(Path::new(&folder), library) {
        Ok(true) => ExitCode::SUCCESS,
        Ok(false) => ExitCode::FAILURE,
        Err(error) => {
            eprintln!("{error}");
            ExitCode::FAILURE
        }
    }
}

/// Runs all vectors of a folder, prints a line of counts for each verb, and says whether
/// everything agreed.
fn run(folder: &Path, library: &Interface) -> Result<bool, String> {
    let mut findings = Findings::default();
    for (name, finding) in worked_cases::run(library) {
        let found = finding.err().unwrap_or(AGREES.to_string());
        findings.note("worked", name, AGREES, &found);
    }
    for cases in stored(folder, "cases")? {
        run_calls(&cases, library, &mut findings)?;
    }
    for page in stored(&folder.join("pages"), "run")? {
        run_page(&page, library, &mut findings)?;
    }
    for (verb, counts) in &findings.counts {
        let Counts { passed, different } = counts;
        println!("{verb}: {passed} passed, {different} different");
    }
    Ok(findings.differences == 0)
}

/// The files of a folder with this extension, by name; an error where there are none.
fn stored(folder: &Path, extension: &str) -> Result<Vec<PathBuf>, String> {
    let mut paths: Vec<PathBuf> = fs::read_dir(folder)
        .map_err(|error| format!("{}: {error}", folder.display()))?
        .filter_map(|entry| Some(entry.ok()?.path()))
        .filter(|path| path.extension().is_some_and(|found| found == extension))
        .collect();
    paths.sort();
    if paths.is_empty() {
        return Err(format!("{}: no files .{extension}", folder.display()));
    }
    Ok(paths)
}

/// Holds each line of a file NAME.cases to its line in NAME.answers.
fn run_calls(path: &Path, library: &Interface, findings: &mut Findings) -> Result<(), String> {
    let cases = read_text(path)?;
    let answers = read_text(&path.with_extension("answers"))?;
    if cases.lines().count() != answers.lines().count() {
        return Err(format!("{} and its answers differ in length", path.display()));
    }
    for (index, (case, expected)) in cases.lines().zip(answers.lines()).enumerate() {
        let name = format!("{} line {}", path.display(), index + 1);
        let case: Case = case.parse().map_err(|error| format!("{name}: {error}"))?;
        findings.note(case.verb(), &name, expected, &case.answer(library).to_string());
        if let Some(record) = case.record() {
            note_record(record, expected, &name, library, findings);
        }
    }
    Ok(())
}

/// Holds a run file's page to the stored one.
fn run_page(path: &Path, library: &Interface, findings: &mut Findings) -> Result<(), String> {
    let name = path.display().to_string();
    let file = fs::read(path).map_err(|error| format!("{name}: {error}"))?;
    let expected = read_text(&path.with_extension("out"))?;
    let page = page(&file, library);
    findings.note("page", &name, &expected, &String::from_utf8_lossy(&page));
    if let Some(file) = RunFile::read(&file) {
        note_record(file.record, &expected, &name, library, findings);
    }
    Ok(())
}

/// Holds the record's own number to what an answer tells about it, if it does.
fn note_record(
    record: &[u8],
    answer: &str,
    name: &str,
    library: &Interface,
    findings: &mut Findings,
) {
    if let Some(expected) = record_number(answer) {
        let found = (library.number)(record).to_string();
        findings.note("record", name, expected, &found);
    }
}

/// Tells the record's own number where it is 1 to 3 or 5 to 7, else 0: a sound record. Mending looks
/// at 1 to 3 alone, so that another answer leaves it open.
fn record_number(answer: &str) -> Option<&str> {
    let words: Vec<&str> = answer.split_whitespace().collect();
    let number = match words[..] {
        ["mend", number @ ("1" | "2" | "3"), ..] => number,
        ["mend" | "report", ..] => return None,
        ["run" | "line" | "span", "refused", number, ..] | ["check" | "load", number, ..] => number,
        _ => "0",
    };
    Some(if ["1", "2", "3", "5", "6", "7"].contains(&number) { number } else { "0" })
}

fn read_text(path: &Path) -> Result<String, String> {
    fs::read_to_string(path).map_err(|error| format!("{}: {error}", path.display()))
}
