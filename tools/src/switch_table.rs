//! The table behind SWITCH and SWITCH_X. Its distances count from the switch's own offset.

use crate::bytes::{halfword, word};
use crate::instruction::Instruction;
use std::fmt;

/// Bytes of the opcode and the operand; the table stands behind them.
pub const HEAD_BYTES: usize = 3;
/// Bytes with the distances of the exit and of ELSE; the rows that n counts stand behind them.
pub const FIXED_BYTES: usize = HEAD_BYTES + 2 * DISTANCE_BYTES;
pub const DISTANCE_BYTES: usize = 2;
const BOUNDS_BYTES: usize = 8;

/// What a row is for.
#[derive(Clone, Copy, PartialEq, Eq)]
pub enum Key {
    Exit,
    Else,
    /// Of SWITCH.
    Value(u32),
    /// Of SWITCH_X: its bounds.
    Range(i32, i32),
}

impl fmt::Display for Key {
    fn fmt(&self, to: &mut fmt::Formatter) -> fmt::Result {
        match self {
            Key::Exit => write!(to, "exit"),
            Key::Else => write!(to, "else"),
            Key::Value(value) => write!(to, "{value}"),
            Key::Range(low, high) => write!(to, "{low} .. {high}"),
        }
    }
}

pub struct Row {
    /// Offset of its first byte.
    pub at: usize,
    pub len: usize,
    pub key: Key,
    pub distance: u16,
}

impl Row {
    /// Finds where the row leads; none for a range with distance 0, which stands for ELSE.
    pub fn target(&self, switch: usize) -> Option<usize> {
        let for_else = matches!(self.key, Key::Range(..)) && self.distance == 0;
        (!for_else).then_some(switch + usize::from(self.distance))
    }
}

/// Reads the rows of the exit and of ELSE, then one for each value from 0 on, or for each range.
pub fn rows(code: &[u8], switch: &Instruction) -> Vec<Row> {
    let exit = switch.at + HEAD_BYTES;
    let otherwise = exit + DISTANCE_BYTES;
    let len = switch.form.len_per_entry;
    let plain = |at, key| Row { at, len: DISTANCE_BYTES, key, distance: halfword(code, at) };
    let counted = (switch.at + FIXED_BYTES..switch.end()).step_by(len).zip(0..);
    let counted = counted.map(|(at, value)| match len {
        DISTANCE_BYTES => plain(at, Key::Value(value)),
        _ => Row { at, len, key: bounds(code, at), distance: halfword(code, at + BOUNDS_BYTES) },
    });
    [plain(exit, Key::Exit), plain(otherwise, Key::Else)].into_iter().chain(counted).collect()
}

fn bounds(code: &[u8], at: usize) -> Key {
    Key::Range(word(code, at) as i32, word(code, at + 4) as i32)
}
