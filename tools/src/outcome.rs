//! A page read back, and what it says in a sentence for people.

use crate::bytes::{counted, spaced, WordForm};
use crate::failure::Status;
use crate::instruction::Instruction;
use crate::libraries::Libraries;
use crate::library;
use crate::machine::{words_found, Machine, Outcome, FINISHED, SPENT};
use crate::meaning::meaning;
use crate::record::Record;
use crate::run_file::RunFile;
use crate::set::{Set, FRAME_HEAD_WORDS};
use crate::verdict::Verdict;

const MEMORY_FULL: u32 = 35;
const STACK_FULL: u32 = 36;

/// How the run of a run file ended.
pub struct Ended {
    /// 0 finished, 1 spent, or the trap.
    pub end: u32,
    /// Offset of the finishing, next or trapped instruction.
    pub at: usize,
    pub line: u32,
    pub steps: u32,
    /// The module that the place is in; none on the page of a file by itself.
    pub module: Option<usize>,
    pub stack: Vec<u32>,
}

pub enum Page {
    Refused(u32),
    Ended(Ended),
}

/// Makes the page of a run file. By itself it is the library's; with libraries the line of the end
/// also has the module.
pub fn page(bytes: &[u8], libraries: &Libraries) -> Vec<u8> {
    match RunFile::split(bytes) {
        Ok(file) if !libraries.is_empty() => set_page(&file, libraries).into_bytes(),
        _ => library::report(bytes),
    }
}

fn set_page(file: &RunFile, libraries: &Libraries) -> String {
    let verdict = Verdict::of(file.record, Some(file.results), Some(file), libraries);
    let refused = |number| format!("check {number}\n");
    if !verdict.is_accepted() {
        return refused(verdict.number);
    }
    let set = Set::new(file.record, file.results, libraries);
    let ran = Machine::load(&set, file).map(|mut machine| (machine.run(file.budget), machine));
    let (outcome, machine) = match ran {
        Ok((Ok(outcome), machine)) => (outcome, machine),
        Ok((Err(_), _)) => return String::new(),
        Err(number) => return refused(number),
    };
    let ended = Ended::new(&set, &outcome, outcome.steps, machine.stack());
    let globals = Record::split(file.record).map_or(0, |record| record.globals as usize);
    let globals = &machine.memory[FRAME_HEAD_WORDS..][..globals];
    let (end, stack, globals) = (ended.line_text(), spaced(machine.stack()), spaced(globals));
    format!("check 0\n{end}\ns{stack}\ng{globals}\n")
}

impl Page {
    /// Takes a page apart; none where it is not one.
    pub fn read(page: &[u8]) -> Option<Page> {
        let mut lines = std::str::from_utf8(page).ok()?.lines().map(numbers);
        match lines.next()?[..] {
            [0] => {}
            [number] => return Some(Page::Refused(number)),
            _ => return None,
        }
        let end = lines.next()?;
        let [end, at, line, steps, ref module @ ..] = end[..] else { return None };
        let module = module.first().map(|&module| module as usize);
        let stack = lines.next()?;
        Some(Page::Ended(Ended { end, at: at as usize, line, steps, module, stack }))
    }
}

/// Picks the numbers among the words of a line.
fn numbers(line: &str) -> Vec<u32> {
    line.split(' ').filter_map(|word| word.parse().ok()).collect()
}

impl Ended {
    /// Looks the line of an end up, after so many steps in all. Without libraries no module is named.
    pub fn new(set: &Set, outcome: &Outcome, steps: u32, stack: &[u32]) -> Ended {
        let Outcome { end, at, module, .. } = *outcome;
        let span = library::line_span(set.modules[module].record, at);
        let line = span.map_or(0, |span| span.line);
        let module = (set.modules.len() > 1).then_some(module);
        Ended { end, at, line, steps, module, stack: stack.to_vec() }
    }

    pub fn is_trap(&self) -> bool {
        !matches!(self.end, FINISHED | SPENT)
    }

    pub fn is_finished(&self) -> bool {
        self.end == FINISHED
    }

    pub fn status(&self) -> Status {
        Status::of(self.is_finished())
    }

    /// Writes the page's line about the end.
    pub fn line_text(&self) -> String {
        let Ended { end, at, line, steps, .. } = self;
        let module = self.module.map_or(String::new(), |module| format!(" module {module}"));
        format!("end {end} at {at} line {line} steps {steps}{module}")
    }

    /// Says what happened, at which source line and with which words.
    pub fn sentence(&self, set: &Set, file: &RunFile, form: WordForm) -> String {
        let place = match self.line {
            0 => format!("offset {}", self.at),
            line => format!("source line {line}"),
        };
        let place = format!("{place}{}", self.of_library(set));
        let steps = counted(self.steps as usize, "step", "steps");
        match self.end {
            FINISHED => format!("finished at {place} after {steps}"),
            SPENT => format!("spent after {steps}; next is {} at {place}", self.next(set)),
            trap => {
                let found = self.found(set, file, form);
                format!("trap {trap}: {} at {place}: {found}", meaning(trap))
            }
        }
    }

    /// Names the library that the place is in.
    pub fn of_library(&self, set: &Set) -> String {
        let library = set.modules[self.module.unwrap_or(0)].library;
        library.map_or(String::new(), |library| format!(" of {}", library.shown()))
    }

    fn next(&self, set: &Set) -> String {
        let record = Record::split(set.modules[self.module.unwrap_or(0)].record);
        let text = record.and_then(|record| {
            let decoded = Instruction::decode(record.code, record.code.len(), self.at)?;
            Ok(decoded.text_in(&record))
        });
        text.unwrap_or_else(|_| "an instruction".to_string())
    }

    /// Names the trapped instruction, the stack words that it took, and what was full.
    fn found(&self, set: &Set, file: &RunFile, form: WordForm) -> String {
        let count = words_found(set, self.module.unwrap_or(0), self.at);
        let taken = &self.stack[self.stack.len().saturating_sub(count)..];
        let taken: Vec<String> = taken.iter().map(|&word| form.text(word)).collect();
        let found = match &taken[..] {
            [] => String::new(),
            [one] => format!(" found {one}"),
            [before @ .., last] => format!(" found {} and {last}", before.join(", ")),
        };
        let full = match self.end {
            MEMORY_FULL => format!("; memory has {} words", file.memory_words),
            STACK_FULL => format!("; the stack has {} words", file.stack_words),
            _ => String::new(),
        };
        format!("{}{found}{full}", self.next(set))
    }
}
