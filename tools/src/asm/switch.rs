//! The bytes of a switch with its table.

use super::encode::{read_back, Place};
use super::program::{Lined, Operand, Statement};
use crate::switch_table::{Key, FIXED_BYTES};

/// A fault, with its line where that is not the switch's own.
type Fault = (Option<usize>, String);

pub fn encode(place: &Place, switch: &Statement) -> Result<Vec<u8>, Fault> {
    let mut bytes = vec![switch.form.code];
    let count = count(switch).map_err(|text| (None, text))?;
    bytes.extend(count.to_be_bytes());
    for key in [Key::Exit, Key::Else] {
        let mut rows = switch.rows.iter().filter(|row| row.item.0 == key);
        let missing = || (None, format!("expected a row {key} -> behind {}", switch.form.name));
        bytes.extend(distance(place, rows.next().ok_or_else(missing)?)?);
        if let Some(second) = rows.next() {
            return Err((Some(second.line), format!("a row {key} is given a second time")));
        }
    }
    let counted = switch.rows.iter().filter(|row| !matches!(row.item.0, Key::Exit | Key::Else));
    for (value, row) in (0..).zip(counted) {
        bytes.extend(bounds(switch, row, value).map_err(|text| (Some(row.line), text))?);
        bytes.extend(distance(place, row)?);
    }
    read_back(&bytes, switch.form.name).map_err(|text| (None, text))?;
    Ok(bytes)
}

/// Counts the operand n, by the rows; one that is given has to be the same.
fn count(switch: &Statement) -> Result<u16, String> {
    let (form, rows) = (switch.form, switch.counted_rows());
    let bytes = (FIXED_BYTES + form.len_per_entry * rows).checked_sub(form.len);
    let Some(count) = bytes.map(|bytes| bytes / form.len_per_entry) else {
        return Err(format!("expected a row 0 -> behind {}", form.name));
    };
    if let Some(Operand::Number(given)) = switch.operands.first() {
        if *given != count as i64 {
            return Err(format!("{} {given} should be {count}, by its rows", form.name));
        }
    }
    u16::try_from(count).map_err(|_| format!("{} has too many rows", form.name))
}

/// Makes what stands before the distance of a row: the bounds of a range, nothing for a value.
fn bounds(switch: &Statement, row: &Lined<(Key, Operand)>, value: u32) -> Result<Vec<u8>, String> {
    let ranges = switch.form.len_per_entry > 2;
    match row.item.0 {
        Key::Range(low, high) if ranges => Ok([low.to_be_bytes(), high.to_be_bytes()].concat()),
        Key::Value(given) if !ranges && given == value => Ok(Vec::new()),
        key if ranges => Err(format!("expected a range LOW .. HIGH, found {key}")),
        key => Err(format!("expected the row of {value}, found {key}")),
    }
}

/// Makes the distance of a row. In a range 0 stands for ELSE: it cannot lead to the switch itself.
fn distance(place: &Place, row: &Lined<(Key, Operand)>) -> Result<[u8; 2], Fault> {
    let fault = |text| (Some(row.line), text);
    let (key, target) = &row.item;
    let distance = match target {
        Operand::Number(number) => *number,
        Operand::Name(name) => place.distance(name).map_err(fault)?,
        Operand::Else => 0,
    };
    if matches!((key, target), (Key::Range(..), Operand::Name(_))) && distance == 0 {
        return Err(fault("a range cannot lead to its own SWITCH_X".to_string()));
    }
    let outside = || format!("a row reaches from 0 to 65535 ahead, found {distance}");
    Ok(u16::try_from(distance).map_err(|_| fault(outside()))?.to_be_bytes())
}
