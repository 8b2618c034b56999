//! A record's code in readable form, for messages about differences.

use crate::instruction::decode;
use crate::mnemonic::name;
use crate::record::Record;
use std::fmt::Write;

/// One line for each instruction, region by region, up to the first bad one of each; nothing
/// for a record that is not sound.
pub fn listing(record: &[u8]) -> String {
    let Ok(record) = Record::read(record) else { return String::new() };
    let mut text = String::new();
    for region in record.regions() {
        let _ = writeln!(text, "procedure {}", region.procedure);
        let mut place = region.start;
        while place < region.end {
            let decoded = decode(record.code, region.end, place);
            let next = decoded.map_or(region.end, |(_, next)| next);
            let bytes: Vec<String> =
                record.code[place..next].iter().map(|byte| format!("{byte:02x}")).collect();
            let opcode = record.code[place];
            let prefixed = decoded.is_ok() && opcode == 0xf5;
            let operation = if prefixed { name(record.code[place + 1]) } else { String::new() };
            let fault = decoded.err().map_or(String::new(), |fault| format!("{fault:?}"));
            let _ = writeln!(
                text,
                "{place:6}: {:24} {} {operation}{fault}",
                bytes.join(" "),
                name(opcode)
            );
            place = next;
        }
    }
    text
}
