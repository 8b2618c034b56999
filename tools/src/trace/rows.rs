//! The rows of a trace: a step, and the memory words that it changed.

use crate::bytes::{spaced, WordForm};
use crate::failure::Failure;
use crate::instruction::Instruction;
use crate::library;
use crate::machine::{Machine, Outcome, FINISHED, SPENT};
use crate::record::Record;
use crate::set::{Set, FRAME_HEAD_WORDS};
use std::fmt::Display;
use std::io::{self, Write};

/// Words that a call writes before the frame of its procedure: of the same module, or of another.
const LINK_WORDS: usize = 2;
const EXTERNAL_LINK_WORDS: usize = 3;

pub struct Rows<'a> {
    pub set: &'a Set<'a>,
    pub machine: Machine<'a>,
    pub form: WordForm,
    records: Vec<Record<'a>>,
    /// Where the data frame of each module begins in memory.
    frames: Vec<usize>,
}

impl<'a> Rows<'a> {
    /// None where a record is not sound.
    pub fn new(set: &'a Set<'a>, machine: Machine<'a>, form: WordForm) -> Option<Rows<'a>> {
        Some(Rows { set, machine, form, records: set.records()?, frames: set.frames() })
    }

    /// Prints the names of the columns.
    pub fn print_head(&self, out: &mut impl Write) -> io::Result<()> {
        let (module, line, instruction) = (self.module_text("module"), "line", "instruction");
        writeln!(out, "  step calls{module} offset  {line:<18} {instruction:<26} stack after it")
    }

    /// Writes the column of the module, which is there only with libraries.
    fn module_text(&self, module: impl Display) -> String {
        match self.records.len() {
            1 => String::new(),
            _ => format!(" {module:>6}"),
        }
    }

    /// Prints what the stack holds before the first step that is shown.
    pub fn print_stack(&self, out: &mut impl Write, from: u32) -> io::Result<()> {
        writeln!(out, "stack before step {from}: {}", self.stack_text())
    }

    /// Takes a step, prints it, and answers how it ended.
    pub fn step(&mut self, out: &mut impl Write, number: u32) -> Result<Outcome, Failure> {
        let (at, module) = (self.machine.place(), self.machine.module());
        let calls = self.machine.calls();
        let before = self.machine.memory.clone();
        let outcome = self.machine.run(1)?;
        let step = match outcome.end {
            FINISHED | SPENT => number.to_string(),
            _ => "*".to_string(),
        };
        let record = &self.records[module];
        let (line, text, stack) =
            (line_text(record, at), instruction_text(record, at), self.stack_text());
        let module = self.module_text(module);
        writeln!(out, "{step:>6} {calls:>5}{module} {at:>6}  {line:<18} {text:<26} {stack}")?;
        self.print_changes(out, &before)?;
        Ok(outcome)
    }

    fn stack_text(&self) -> String {
        match self.machine.stack() {
            [] => "-".to_string(),
            words => spaced(words.iter().map(|&word| self.form.text(word)))[1..].to_string(),
        }
    }

    fn print_changes(&self, out: &mut impl Write, before: &[u32]) -> io::Result<()> {
        for (at, (&old, &new)) in before.iter().zip(&self.machine.memory).enumerate() {
            if old != new {
                let (old, new) = (self.form.text(old), self.form.text(new));
                writeln!(out, "{:>6} memory {at}{}: {old} -> {new}", "", self.name_of(at))?;
            }
        }
        Ok(())
    }

    /// Says what a memory word is, as far as its address tells.
    fn name_of(&self, at: usize) -> String {
        let frame = self.machine.frame();
        let local = at.checked_sub(frame);
        match self.global_text(at) {
            Some(text) => text,
            None if self.machine.calls() > 0 && at < frame && at + self.link_words() >= frame => {
                ", link".to_string()
            }
            None => local.map_or(String::new(), |local| format!(", local {local}")),
        }
    }

    /// Names a global by its number, and with libraries by its module.
    fn global_text(&self, at: usize) -> Option<String> {
        let module = self.frames.iter().rposition(|&frame| frame <= at)?;
        let globals = self.records.get(module)?.globals as usize;
        let global = at.checked_sub(self.frames[module] + FRAME_HEAD_WORDS)?;
        let of_module = match self.records.len() {
            1 => String::new(),
            _ => format!(" of module {module}"),
        };
        (global < globals).then(|| format!(", global {global}{of_module}"))
    }

    /// Counts the words of the topmost link, by its return word (02, K1).
    fn link_words(&self) -> usize {
        let word = self.machine.frame().checked_sub(1).map_or(0, |at| self.machine.memory[at]);
        if (word as i32) > 0 {
            LINK_WORDS
        } else {
            EXTERNAL_LINK_WORDS
        }
    }
}

/// Writes the source line of an offset, with its first and last one.
fn line_text(record: &Record, at: usize) -> String {
    let span = library::line_span(record.bytes, at);
    span.map_or(String::new(), |span| format!("{} ({} to {})", span.line, span.first, span.last))
}

fn instruction_text(record: &Record, at: usize) -> String {
    let decoded = Instruction::decode(record.code, record.code.len(), at);
    decoded.map_or(String::new(), |instruction| instruction.text())
}
