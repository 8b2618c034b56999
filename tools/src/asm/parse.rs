//! Reading an assembler text, line by line.

use super::program::{Item, Lined, Operand, Procedure, Program, Statement, TextFault};
use super::tokens::{is_name, number, tokens, Reader, Token};
use crate::sheet::{Operands, Sheet};
use crate::switch_table::Key;

/// Takes a text apart, or says what is wrong with its lines.
pub fn parse(text: &str) -> Result<Program, Vec<TextFault>> {
    let mut parser = Parser { program: Program::default(), line: 0 };
    let mut faults = Vec::new();
    for line in text.lines() {
        parser.line += 1;
        if let Err(text) = tokens(line).and_then(|tokens| parser.read_line(&tokens)) {
            faults.push(TextFault { line: parser.line, text });
        }
    }
    if faults.is_empty() {
        Ok(parser.program)
    } else {
        Err(faults)
    }
}

pub struct Parser {
    pub program: Program,
    /// The present line, counted from 1.
    pub line: usize,
}

impl Parser {
    /// Reads a label, a directive, an instruction or the row of a switch; a label may stand before
    /// an instruction.
    fn read_line(&mut self, tokens: &[Token]) -> Result<(), String> {
        let mut reader = Reader { rest: tokens };
        if let [Token::Word(name), Token::Colon, rest @ ..] = tokens {
            self.add_label(name)?;
            reader = Reader { rest };
        }
        match reader.rest.first() {
            None => return Ok(()),
            Some(_) if reader.rest.contains(&Token::Arrow) => self.read_row(&mut reader)?,
            Some(Token::Word(word)) if word.starts_with('.') => self.read_directive(&mut reader)?,
            Some(_) => self.read_instruction(&mut reader)?,
        }
        reader.end()
    }

    /// Finds the procedure that the present line belongs to.
    fn procedure(&mut self) -> Result<&mut Procedure, String> {
        let missing = "expected .procedure N before the first label or instruction";
        self.program.procedures.last_mut().ok_or_else(|| missing.to_string())
    }

    pub fn add(&mut self, item: Item) -> Result<(), String> {
        let line = self.line;
        self.procedure()?.items.push(Lined { line, item });
        Ok(())
    }

    fn add_label(&mut self, name: &str) -> Result<(), String> {
        if !is_name(name) {
            let rule = "letters, digits and _ that do not begin with a digit, \
                        and not exit, else or at";
            return Err(format!("expected a label, {rule}, found '{}'", name.escape_debug()));
        }
        self.add(Item::Label(name.to_string()))
    }

    fn read_instruction(&mut self, reader: &mut Reader) -> Result<(), String> {
        let sheet = Sheet::get();
        let double = reader.takes(&Token::Word(sheet.prefix.1.to_string()));
        let what = if double { "an instruction that has this prefix" } else { "an instruction" };
        let unknown = reader.expected(what);
        let word = reader.word(what)?;
        let form = sheet.with_name(word).filter(|form| form.double || !double);
        let form = form.ok_or_else(|| format!("{unknown}{}", hint(word, double)))?;
        let operands = read_operands(reader, form.operands())?;
        self.add(Item::Statement(Statement { form, double, operands, rows: Vec::new() }))
    }

    /// Reads a row of the switch before it: what it is for, -> and where it leads.
    fn read_row(&mut self, reader: &mut Reader) -> Result<(), String> {
        let line = self.line;
        let last = self.procedure()?.items.last_mut();
        let switch = last.and_then(|last| match &mut last.item {
            Item::Statement(statement) if statement.form.operands() == Operands::Table => {
                Some(statement)
            }
            _ => None,
        });
        let lost = "expected SWITCH or SWITCH_X before a row with ->";
        let switch = switch.ok_or_else(|| lost.to_string())?;
        let key = read_key(reader)?;
        reader.expect(&Token::Arrow)?;
        let target = match key {
            Key::Range(..) if reader.takes(&Token::Word("else".to_string())) => Operand::Else,
            _ => read_target(reader, "a label or a distance")?,
        };
        switch.rows.push(Lined { line, item: (key, target) });
        Ok(())
    }
}

fn read_operands(reader: &mut Reader, operands: Operands) -> Result<Vec<Operand>, String> {
    Ok(match operands {
        Operands::Absent => Vec::new(),
        // How many rows a switch has may be left to be counted.
        Operands::Table if reader.rest.is_empty() => Vec::new(),
        Operands::Number | Operands::Table => vec![read_number(reader)?],
        Operands::Two | Operands::External => {
            let first = read_number(reader)?;
            reader.expect(&Token::Comma)?;
            vec![first, read_number(reader)?]
        }
        Operands::Distance => vec![read_target(reader, "a label or a distance")?],
        Operands::Procedure => vec![read_target(reader, "a procedure")?],
    })
}

/// Reads what a row is for: exit, else, a value, or a range.
fn read_key(reader: &mut Reader) -> Result<Key, String> {
    let what = "exit, else, a value or a range LOW .. HIGH";
    let fault = reader.expected(what);
    match reader.word(what)? {
        "exit" => Ok(Key::Exit),
        "else" => Ok(Key::Else),
        word => {
            let low = number(word).ok_or(fault)?;
            if !reader.takes(&Token::Dots) {
                return u32::try_from(low).map(Key::Value).map_err(|_| reader.expected("'..'"));
            }
            let bounds = i64::from(i32::MIN)..=i64::from(i32::MAX);
            let high = reader.number(bounds)?;
            let outside = || format!("expected a signed word before '..', found {low}");
            let low = i32::try_from(low).map_err(|_| outside())?;
            Ok(Key::Range(low, high as i32))
        }
    }
}

/// Reads a number; whether it fits is seen when it is encoded.
fn read_number(reader: &mut Reader) -> Result<Operand, String> {
    let fault = reader.expected("a number");
    number(reader.word("a number")?).map(Operand::Number).ok_or(fault)
}

/// Reads a name, or a number with or without a sign.
fn read_target(reader: &mut Reader, what: &str) -> Result<Operand, String> {
    let fault = reader.expected(what);
    let word = reader.word(what)?;
    match number(word) {
        Some(number) => Ok(Operand::Number(number)),
        None if is_name(word) => Ok(Operand::Name(word.to_string())),
        None => Err(fault),
    }
}

/// Names the instructions that may have been meant: those with the same name up to the dot.
fn hint(word: &str, double: bool) -> String {
    let names = Sheet::get().names_like(word);
    let ends_in_digit = |name: &&&str| name.ends_with(|last: char| last.is_ascii_digit());
    let (implied, others): (Vec<&str>, Vec<&str>) = names.iter().partition(ends_in_digit);
    let implied = match implied[..] {
        [first, .., last] => Some(format!("{first} to {last}")),
        _ => None,
    };
    let all: Vec<String> =
        implied.into_iter().chain(others.iter().map(|name| name.to_string())).collect();
    if double || all.is_empty() {
        return String::new();
    }
    format!("; there is {}", all.join(", "))
}
