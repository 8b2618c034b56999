//! One call of the interface as data: the case, and the answer with all words as they are
//! afterwards. `case_text` gives both their text form.

mod set;

use crate::interface::{Interface, MEND_COUNTS, OUTCOME_WORDS, SPAN_WORDS, STATE_WORDS};
use crate::record::Span;
use crate::report::{RunFile, LARGEST_RUN_FILE};

pub use set::{Directed, Module, SetCall, SetCase, SetOutcome, SetWords};

pub type State = [u32; STATE_WORDS];
pub type Outcome = [u32; OUTCOME_WORDS];

#[derive(Clone, Debug, PartialEq, Eq)]
pub enum Case {
    Check {
        record: Vec<u8>,
        results: Vec<u8>,
        workspace: Vec<u16>,
    },
    Load {
        record: Vec<u8>,
        parameters: Vec<u32>,
        memory: Vec<u32>,
        stack: Vec<u32>,
    },
    Run {
        record: Vec<u8>,
        budget: u32,
        machine: Words,
    },
    Line {
        record: Vec<u8>,
        offset: u32,
    },
    Span {
        record: Vec<u8>,
        offset: u32,
    },
    Mend {
        record: Vec<u8>,
        out: Vec<u8>,
        places: Vec<u32>,
    },
    Report {
        file: Vec<u8>,
    },
    /// A call over a set of modules (02, K1).
    Set(SetCase),
}

/// What a machine keeps between runs.
#[derive(Clone, Debug, PartialEq, Eq)]
pub struct Words {
    /// pc, fp, mp, gp, height, calls
    pub state: State,
    pub memory: Vec<u32>,
    pub stack: Vec<u32>,
}

#[derive(Clone, Debug, PartialEq, Eq)]
pub enum Answer {
    Check {
        number: u32,
        workspace: Vec<u16>,
    },
    Load {
        number: u32,
        machine: Words,
    },
    /// The outcome (end, at, steps), or the refusal.
    Run {
        ended: Result<Outcome, u32>,
        machine: Words,
    },
    /// The line, or the refusal.
    Line(Result<u32, u32>),
    /// The span, or the refusal.
    Span(Result<Span, u32>),
    /// The counts (bytes of the new record, words dropped) are 0 when refused.
    Mend {
        number: u32,
        counts: [u32; MEND_COUNTS],
        out: Vec<u8>,
        places: Vec<u32>,
    },
    /// The page.
    Report(Vec<u8>),
    SetCheck {
        number: u32,
        workspace: Vec<u16>,
    },
    SetLoad {
        number: u32,
        machine: SetWords,
    },
    /// The outcome (end, at, steps, module), or the refusal.
    SetRun {
        ended: Result<SetOutcome, u32>,
        machine: SetWords,
    },
}

impl Case {
    pub fn verb(&self) -> &'static str {
        match self {
            Case::Check { .. } => "check",
            Case::Load { .. } => "load",
            Case::Run { .. } => "run",
            Case::Line { .. } => "line",
            Case::Span { .. } => "span",
            Case::Mend { .. } => "mend",
            Case::Report { .. } => "report",
            Case::Set(case) => case.call.verb(),
        }
    }

    /// Gives the record of a call that takes one.
    pub fn record(&self) -> Option<&[u8]> {
        match self {
            Case::Check { record, .. }
            | Case::Load { record, .. }
            | Case::Run { record, .. }
            | Case::Line { record, .. }
            | Case::Span { record, .. }
            | Case::Mend { record, .. } => Some(record),
            // A malformed run file has no record.
            Case::Report { file } => RunFile::read(file).map(|file| file.record),
            Case::Set(_) => None,
        }
    }

    /// Gives the records of all modules.
    pub fn records(&self) -> Vec<&[u8]> {
        match self {
            Case::Set(case) => case.modules.iter().map(|module| &module.record[..]).collect(),
            _ => self.record().into_iter().collect(),
        }
    }

    /// The answer of an implementation.
    pub fn answer(&self, library: &Interface) -> Answer {
        match self {
            Case::Check { record, results, workspace } => {
                let mut workspace = workspace.clone();
                let number = (library.check)(record, results, &mut workspace);
                Answer::Check { number, workspace }
            }
            Case::Load { record, parameters, memory, stack } => {
                let mut machine =
                    Words { state: [0; STATE_WORDS], memory: memory.clone(), stack: stack.clone() };
                let Words { state, memory, stack } = &mut machine;
                let number = (library.load)(record, parameters, memory, stack, state);
                Answer::Load { number, machine }
            }
            Case::Run { record, budget, machine } => {
                let mut machine = machine.clone();
                let Words { state, memory, stack } = &mut machine;
                // A refused run leaves the outcome as it was, too.
                let mut outcome = [u32::MAX; OUTCOME_WORDS];
                let number = (library.run)(record, *budget, memory, stack, state, &mut outcome);
                let ended = match number {
                    0 => Ok(outcome),
                    _ if outcome == [u32::MAX; OUTCOME_WORDS] => Err(number),
                    _ => panic!("refused with {number}, but wrote outcome {outcome:?}"),
                };
                Answer::Run { ended, machine }
            }
            Case::Line { record, offset } => {
                let answer = (library.line)(record, *offset);
                Answer::Line(match (answer >> 32) as u32 {
                    0 => Ok(answer as u32),
                    number => Err(number),
                })
            }
            Case::Span { record, offset } => {
                let mut words = [u32::MAX; SPAN_WORDS];
                let number = (library.span)(record, *offset, &mut words);
                Answer::Span(match (number, words) {
                    (0, [0, first, last, line]) => Ok(Span::Found { first, last, line }),
                    (0, [1, 0, 0, 0]) => Ok(Span::Outside),
                    // A refused lookup leaves the words as they were.
                    (1.., [u32::MAX, u32::MAX, u32::MAX, u32::MAX]) => Err(number),
                    _ => panic!("answered {number}, and wrote span {words:?}"),
                })
            }
            Case::Mend { record, out, places } => {
                let (mut out, mut places) = (out.clone(), places.clone());
                let mut counts = [u32::MAX; MEND_COUNTS];
                let number = (library.mend)(record, &mut out, &mut places, &mut counts);
                let counts = match (number, counts) {
                    (0, counts) => counts,
                    // A refusal leaves the counts as they were, too.
                    (1.., [u32::MAX, u32::MAX]) => [0; MEND_COUNTS],
                    _ => panic!("refused with {number}, but wrote counts {counts:?}"),
                };
                Answer::Mend { number, counts, out, places }
            }
            Case::Report { file } => Answer::Report(page(file, library)),
            Case::Set(case) => case.answer(library),
        }
    }
}

/// The page of a run file, in a buffer that is longer than any.
pub fn page(file: &[u8], library: &Interface) -> Vec<u8> {
    let mut page = vec![0; 4 * LARGEST_RUN_FILE];
    let written = (library.report)(file, &mut page);
    page.truncate(written);
    page
}

impl Answer {
    /// The refusal of 1 to 24, or 0; also 0 for a page, which has it in its text.
    pub fn number(&self) -> u32 {
        match *self {
            Answer::Check { number, .. }
            | Answer::Load { number, .. }
            | Answer::Mend { number, .. }
            | Answer::SetCheck { number, .. }
            | Answer::SetLoad { number, .. } => number,
            Answer::Run { ended: Err(number), .. }
            | Answer::SetRun { ended: Err(number), .. }
            | Answer::Line(Err(number))
            | Answer::Span(Err(number)) => number,
            Answer::Run { ended: Ok(_), .. }
            | Answer::SetRun { ended: Ok(_), .. }
            | Answer::Line(Ok(_))
            | Answer::Span(Ok(_))
            | Answer::Report(_) => 0,
        }
    }
}
