//! What stands before the rows of a listing, for a refusal or for the end of the run.

use crate::library::{self, Span};
use crate::meaning::meaning;
use crate::outcome::Ended;
use crate::set::Set;
use crate::verdict::Verdict;
use std::io::{self, Write};

pub struct Marks<'a> {
    verdict: &'a Verdict,
    set: &'a Set<'a>,
    /// A run that did not finish, with the whole source line in which it ended.
    stopped: Option<(&'a Ended, Span)>,
}

impl<'a> Marks<'a> {
    pub fn new(verdict: &'a Verdict, set: &'a Set<'a>, ended: Option<&'a Ended>) -> Marks<'a> {
        let stopped = ended.filter(|ended| !ended.is_finished()).and_then(|ended| {
            let record = set.modules[ended.module.unwrap_or(0)].record;
            Some((ended, library::line_span(record, ended.at)?))
        });
        Marks { verdict, set, stopped }
    }

    /// Chooses the mark of a row, by its offset.
    pub fn at(&self, offset: usize) -> char {
        let in_main = |ended: &Ended| ended.is_trap() && ended.module.unwrap_or(0) == 0;
        match &self.stopped {
            _ if self.verdict.blames(offset) => '!',
            Some((ended, _)) if in_main(ended) && ended.at == offset => '*',
            Some((ended, span)) if in_main(ended) && holds(span, offset) => '>',
            _ => ' ',
        }
    }

    /// Says how a run ended that did not finish.
    pub fn print_end(&self, out: &mut impl Write) -> io::Result<()> {
        let Some((ended, Span { first, last, line })) = &self.stopped else { return Ok(()) };
        let Ended { end, at, steps, .. } = ended;
        let library = ended.of_library(self.set);
        let place = format!("at {at}, in line {line} from {first} to {last}{library}");
        if ended.is_trap() {
            writeln!(out, "trap {end} {place}: {}", meaning(*end))
        } else {
            writeln!(out, "spent {place}: the budget of {steps} steps")
        }
    }
}

fn holds(span: &Span, offset: usize) -> bool {
    (span.first..=span.last).contains(&offset)
}
