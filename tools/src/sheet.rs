//! The 256 codes: the sheet that the proved decoder prints (crates/opcode_table). There is no other
//! table of them here.

use std::sync::OnceLock;

const SHEET: &str = include_str!("../../crates/opcode_table/stdout");

/// A served instruction, by its code.
pub struct Form {
    pub code: u8,
    pub name: &'static str,
    /// In bytes, without a prefix and the rows of a table that are counted by n.
    pub len: usize,
    /// Bytes for each of n, of a switch; else 0.
    pub len_per_entry: usize,
    /// Whether DOUBLE may stand before it.
    pub double: bool,
}

pub struct Sheet {
    forms: Vec<Form>,
    /// Code and name of the prefix.
    pub prefix: (u8, &'static str),
}

impl Sheet {
    pub fn get() -> &'static Sheet {
        static READ: OnceLock<Sheet> = OnceLock::new();
        READ.get_or_init(|| {
            let mut sheet = Sheet { forms: Vec::new(), prefix: (0, "") };
            for row in SHEET.lines() {
                sheet.add(&row.split(' ').collect::<Vec<_>>());
            }
            sheet
        })
    }

    /// Adds a row: code, name, length, marks. One that is not served has no length.
    fn add(&mut self, row: &[&'static str]) {
        let [code, name, length, marks @ ..] = row else { return };
        let Ok(code) = u8::from_str_radix(code, 16) else { return };
        if marks.contains(&"prefix") {
            self.prefix = (code, name);
            return;
        }
        // A switch has 9+2n or 7+10n.
        let (len, per_entry) = length.split_once('+').unwrap_or((length, "0n"));
        if let (Ok(len), Ok(len_per_entry)) = (len.parse(), per_entry.trim_end_matches('n').parse())
        {
            let double = marks.contains(&"double");
            self.forms.push(Form { code, name, len, len_per_entry, double });
        }
    }

    pub fn with_code(&self, code: u8) -> Option<&Form> {
        self.forms.iter().find(|form| form.code == code)
    }

    pub fn with_name(&self, name: &str) -> Option<&Form> {
        self.forms.iter().find(|form| form.name == name)
    }

    /// Answers the code of a served instruction.
    pub fn code_of(&self, name: &str) -> u8 {
        self.with_name(name).map_or(0, |form| form.code)
    }

    /// Finds the names that are a word up to their size or implied number.
    pub fn names_like(&self, word: &str) -> Vec<&'static str> {
        let word = word.to_uppercase();
        let wanted = word.split('.').next().unwrap_or_default();
        let names = self.forms.iter().map(|form| form.name);
        names.filter(|name| name.split('.').next() == Some(wanted)).collect()
    }
}

/// What stands behind a code.
#[derive(Clone, Copy, PartialEq, Eq)]
pub enum Operands {
    Absent,
    Number,
    /// To the place that it leads to, from the instruction's own first byte.
    Distance,
    Procedure,
    /// ENTER's parameter and data words.
    Two,
    /// Library number, then a global or a procedure of that library.
    External,
    /// The table of a switch.
    Table,
}

impl Form {
    /// Goes by the name up to its size or implied number: the sheet does not say what bytes mean.
    pub fn operands(&self) -> Operands {
        let base = self.name.split('.').next().unwrap_or_default();
        match base {
            _ if self.len == 1 => Operands::Absent,
            _ if self.len_per_entry > 0 => Operands::Table,
            "JUMP" | "JUMP_C" | "JUMP_T" | "JUMP_F" | "ITER" => Operands::Distance,
            "CALL" => Operands::Procedure,
            "ENTER" => Operands::Two,
            "LOAD_E" | "LOAD_A_E" | "STOR_E" | "CALL_E" => Operands::External,
            _ => Operands::Number,
        }
    }

    /// Tells whether the next place may be the one behind it.
    pub fn falls_through(&self) -> bool {
        let stays = matches!(self.name, "JUMP.b" | "JUMP.h" | "LEAVE" | "RTN");
        !stays && self.operands() != Operands::Table
    }
}
