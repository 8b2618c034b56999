//! An assembler text taken apart.

use crate::sheet::Form;
use crate::switch_table::Key;

/// What is wrong with a line of the text.
pub struct TextFault {
    pub line: usize,
    pub text: String,
}

/// A thing with the line of the text that it stands in.
pub struct Lined<T> {
    pub line: usize,
    pub item: T,
}

#[derive(Default)]
pub struct Program {
    pub globals: Option<u32>,
    pub constants: Vec<u32>,
    pub imports: Vec<u32>,
    /// As the text gives it; without one it has every library byte.
    pub relocation: Option<Vec<u32>>,
    pub version: Vec<u32>,
    /// As the text gives it; without one every procedure has none.
    pub results: Option<Vec<u8>>,
    pub run: RunHead,
    pub procedures: Vec<Procedure>,
    /// Source lines that are given with their offsets.
    pub source_lines: Vec<Lined<(usize, u32)>>,
}

/// What a run file has besides.
#[derive(Default)]
pub struct RunHead {
    /// None where the text does not name any.
    pub parameters: Option<Vec<u32>>,
    pub budget: Option<u32>,
    pub memory: Option<u16>,
    pub stack: Option<u16>,
}

pub struct Procedure {
    pub number: usize,
    pub name: Option<String>,
    pub line: usize,
    pub items: Vec<Lined<Item>>,
}

pub enum Item {
    Label(String),
    /// The source line of the next instruction.
    SourceLine(u32),
    Statement(Statement),
    Bytes(Vec<u8>),
}

pub struct Statement {
    pub form: &'static Form,
    pub double: bool,
    pub operands: Vec<Operand>,
    /// Of a switch.
    pub rows: Vec<Lined<(Key, Operand)>>,
}

/// A number, or what a name stands for; in a row also the ELSE part.
pub enum Operand {
    Number(i64),
    Name(String),
    Else,
}
