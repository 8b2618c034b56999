//! The directives of an assembler text: words that begin with a dot.

use super::parse::Parser;
use super::program::{Item, Lined, Procedure};
use super::tokens::{is_name, Reader, Token};
use crate::bytes::words;

const NAMES: &str = ".globals, .constants, .version, .import, .relocation, .results, .parameters, \
                     .budget, .memory, .stack, .procedure, .line and .bytes";

const BYTE: i64 = u8::MAX as i64;
const HALFWORD: i64 = u16::MAX as i64;
const WORD: i64 = u32::MAX as i64;

impl Parser {
    pub fn read_directive(&mut self, reader: &mut Reader) -> Result<(), String> {
        let unknown = reader.expected("a directive");
        let name = reader.word("a directive")?;
        let program = &mut self.program;
        let run = &mut program.run;
        match name {
            ".globals" => once(name, &mut program.globals, reader.number(0..=WORD)? as u32),
            ".budget" => once(name, &mut run.budget, reader.number(0..=WORD)? as u32),
            ".memory" => once(name, &mut run.memory, reader.number(0..=HALFWORD)? as u16),
            ".stack" => once(name, &mut run.stack, reader.number(0..=HALFWORD)? as u16),
            ".constants" => read_words(reader, &mut program.constants),
            ".import" => read_words(reader, &mut program.imports),
            ".relocation" => read_words(reader, program.relocation.get_or_insert_default()),
            ".version" => read_version(reader, &mut program.version),
            ".parameters" => read_words(reader, run.parameters.get_or_insert_default()),
            ".results" => read_bytes(reader, program.results.get_or_insert_default()),
            ".procedure" => self.read_procedure(reader),
            ".line" => self.read_source_line(reader),
            ".bytes" => {
                let mut bytes = Vec::new();
                read_bytes(reader, &mut bytes)?;
                self.add(Item::Bytes(bytes))
            }
            _ => Err(format!("{unknown}; there are {NAMES}")),
        }
    }

    /// Reads a number, and a name that CALL.b may use.
    fn read_procedure(&mut self, reader: &mut Reader) -> Result<(), String> {
        let number = reader.number(0..=BYTE)? as usize;
        let name = match reader.rest.first() {
            Some(Token::Word(word)) if is_name(word) => Some(reader.word("a name")?.to_string()),
            _ => None,
        };
        let procedure = Procedure { number, name, line: self.line, items: Vec::new() };
        self.program.procedures.push(procedure);
        Ok(())
    }

    /// Reads the source line of the next instruction, or of an offset of the code.
    fn read_source_line(&mut self, reader: &mut Reader) -> Result<(), String> {
        let number = reader.number(0..=WORD)? as u32;
        if !reader.takes(&Token::Word("at".to_string())) {
            return self.add(Item::SourceLine(number));
        }
        let offset = reader.number(0..=WORD)? as usize;
        self.program.source_lines.push(Lined { line: self.line, item: (offset, number) });
        Ok(())
    }
}

/// Notes what may stand in a text only once.
fn once<T>(name: &str, slot: &mut Option<T>, value: T) -> Result<(), String> {
    match slot.replace(value) {
        None => Ok(()),
        Some(_) => Err(format!("{name} is given a second time")),
    }
}

fn read_words(reader: &mut Reader, list: &mut Vec<u32>) -> Result<(), String> {
    while !reader.rest.is_empty() {
        list.push(reader.number(i64::from(i32::MIN)..=WORD)? as u32);
    }
    Ok(())
}

fn read_bytes(reader: &mut Reader, list: &mut Vec<u8>) -> Result<(), String> {
    while !reader.rest.is_empty() {
        list.push(reader.number(0..=BYTE)? as u8);
    }
    Ok(())
}

/// Reads words of the version table: numbers, or texts of four characters for each word.
fn read_version(reader: &mut Reader, list: &mut Vec<u32>) -> Result<(), String> {
    while let Some(first) = reader.rest.first() {
        match first {
            Token::Text(text) if text.len() % 4 == 0 => {
                list.extend(words(text));
                reader.next();
            }
            Token::Text(_) => return Err(reader.expected("four characters for each word")),
            _ => list.push(reader.number(i64::from(i32::MIN)..=WORD)? as u32),
        }
    }
    Ok(())
}
