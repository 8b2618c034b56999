//! The bytes of an instruction. The library reads them back: what it does not read as it was
//! written does not fit.

use super::layout::{Layout, Placed};
use super::program::{Item, Operand, Statement};
use super::switch;
use crate::instruction::named;
use crate::library::{self, Decoded};
use crate::sheet::{Operands, Sheet};

/// What names stand for at a place of the code.
pub struct Place<'a> {
    pub layout: &'a Layout<'a>,
    pub procedure: &'a Placed<'a>,
    /// Offset of the instruction.
    pub at: usize,
}

impl Place<'_> {
    /// Makes the bytes of an item, or says what does not fit: of a row with its own line.
    pub fn item_bytes(&self, item: &Item) -> Result<Vec<u8>, (Option<usize>, String)> {
        match item {
            Item::Label(_) | Item::SourceLine(_) => Ok(Vec::new()),
            Item::Bytes(bytes) => Ok(bytes.clone()),
            Item::Statement(statement) if statement.form.operands() == Operands::Table => {
                switch::encode(self, statement)
            }
            Item::Statement(statement) => self.encode(statement).map_err(|text| (None, text)),
        }
    }

    /// Makes the bytes of an instruction other than a switch.
    fn encode(&self, statement: &Statement) -> Result<Vec<u8>, String> {
        let (form, double) = (statement.form, statement.double);
        let prefix = Sheet::get().prefix.0;
        let values = statement.operands.iter().map(|operand| self.value(operand, form.operands()));
        let values: Vec<i64> = values.collect::<Result<_, _>>()?;
        let head = if double { vec![prefix, form.code] } else { vec![form.code] };
        let width = (form.len - 1) / values.len().max(1);
        let operands =
            values.iter().flat_map(|value| value.to_be_bytes().into_iter().skip(8 - width));
        let bytes: Vec<u8> = head.iter().copied().chain(operands).collect();
        let name = named(form, double);
        let decoded = read_back(&bytes, &name)?;
        for (&value, read) in values.iter().zip([decoded.operand, decoded.second]) {
            if i64::from(read) != value && i64::from(read as i32) != value {
                let (low, high) = range(&head, width);
                let distance = form.operands() == Operands::Distance;
                let what = if distance { "a distance" } else { "a number" };
                return Err(format!("{name} takes {what} from {low} to {high}, found {value}"));
            }
        }
        Ok(bytes)
    }

    /// Finds the number that an operand stands for.
    fn value(&self, operand: &Operand, operands: Operands) -> Result<i64, String> {
        match operand {
            Operand::Number(number) => Ok(*number),
            Operand::Name(name) if operands == Operands::Procedure => {
                let number = self.layout.names.get(name.as_str()).map(|&number| number as i64);
                number.ok_or_else(|| format!("expected a procedure, found no '{name}'"))
            }
            Operand::Name(name) => self.distance(name),
            Operand::Else => Ok(0),
        }
    }

    /// Finds the distance to a label of the same procedure.
    pub fn distance(&self, label: &str) -> Result<i64, String> {
        let number = self.procedure.procedure.number;
        let missing =
            || format!("expected a label of procedure {number}, found no '{label}:' in it");
        let target = self.procedure.labels.get(label).ok_or_else(missing)?;
        Ok(*target as i64 - self.at as i64)
    }
}

/// Lets the library read an instruction's bytes, which have to be all of it.
pub fn read_back(bytes: &[u8], name: &str) -> Result<Decoded, String> {
    let read = library::decode(bytes, bytes.len(), 0).ok();
    let whole = read.filter(|decoded| decoded.len == bytes.len());
    whole.ok_or_else(|| format!("the library does not read {name} as it is written here"))
}

/// Finds the numbers that an operand may be: whether it is signed, the library shows.
fn range(head: &[u8], width: usize) -> (i64, i64) {
    let ones = [head, &[0xff; 8][..]].concat();
    let read = library::decode(&ones, ones.len(), 0).map_or(0, |decoded| decoded.operand);
    let bits = 8 * width as u32;
    match read == u32::MAX {
        true if width == 4 => (i64::from(i32::MIN), i64::from(u32::MAX)),
        true => (-(1 << (bits - 1)), (1 << (bits - 1)) - 1),
        false => (0, (1 << bits) - 1),
    }
}
