//! Single random instructions and byte soup.

use super::record::set_entry;
use crate::cut::cut;
use crate::instruction::{decode, Fault};
use crate::random::Random;
use crate::record::Region;

/// Opcodes that DOUBLE may stand before.
const ACCESSES: [u8; 10] = [0x80, 0x81, 0x85, 0x86, 0x87, 0x88, 0x94, 0x95, 0x96, 0x97];

/// Is the opcode served, alone or as a prefix?
pub fn is_served(opcode: u8) -> bool {
    decode(&[opcode], 1, 0) != Err(Fault::Unserved)
}

/// Added to the number of an opcode that stands after DOUBLE.
pub const AFTER_DOUBLE: u32 = 256;

/// LOAD_E, LOAD_A_E, STOR_E and CALL_E, which a record by itself does not take where they are cut.
pub const EXTERNAL: [u32; 4] = [0x89, 0x91, 0x98, 0xe6];

/// All other served opcodes, those after DOUBLE included.
pub fn served() -> Vec<u32> {
    let alone = (0..=255).filter(|&opcode| opcode != 0xf5 && is_served(opcode)).map(u32::from);
    let alone = alone.filter(|opcode| !EXTERNAL.contains(opcode));
    let double = (0..=255)
        .filter(|&opcode| decode(&[0xf5, opcode], 2, 0) != Err(Fault::Unserved))
        .map(|opcode| AFTER_DOUBLE + u32::from(opcode));
    alone.chain(double).collect()
}

/// The number of the opcode at a place.
pub fn opcode_at(code: &[u8], place: usize) -> Option<u32> {
    match (code.get(place)?, code.get(place + 1)) {
        (0xf5, Some(&opcode)) => Some(AFTER_DOUBLE + u32::from(opcode)),
        (&opcode, _) => Some(u32::from(opcode)),
    }
}

/// An opcode, mostly a served one.
pub fn opcode(random: &mut Random) -> u8 {
    let most = if random.percent(50) { 0x80 } else { 0 };
    for _ in 0..20 {
        let opcode = most | random.byte();
        if is_served(opcode) {
            return opcode;
        }
    }
    0xff
}

/// The bytes of one instruction; now and then an unserved one.
pub fn instruction(random: &mut Random) -> Vec<u8> {
    if random.percent(4) {
        return random.pick(&[&[0x71][..], &[0x72], &[0xe5, 1], &[0xe9]]).to_vec();
    }
    let opcode = if random.percent(3) { random.byte() } else { opcode(random) };
    if opcode == 0xf5 {
        let after = access_opcode(random);
        return of_opcode(random, AFTER_DOUBLE + u32::from(after));
    }
    of_opcode(random, u32::from(opcode))
}

/// The bytes of an instruction with random operands.
fn of_opcode(random: &mut Random, number: u32) -> Vec<u8> {
    let opcode = number as u8;
    let mut bytes = if number >= AFTER_DOUBLE { vec![0xf5, opcode] } else { vec![opcode] };
    match opcode {
        0xe2 | 0xe3 => bytes.extend(switch_operands(random, opcode == 0xe3)),
        _ => bytes.extend(operands(random, opcode)),
    }
    bytes
}

/// Opcodes with more to go wrong than the others have.
#[rustfmt::skip]
const INTRICATE: [u32; 16] = [
    0xe0, 0xe0, 0xe1, 0xe1, 0xe1, 0xe2, 0xe3, 0xe4, 0xe5, 0xe8, 0xe9, 0xd8, 0xd9, 0xa8, 0xa9, 0xaa,
];

/// Code whose procedure 0 begins with an instruction of one of the served opcodes.
pub fn single(random: &mut Random, served: &[u32]) -> Vec<u8> {
    let opcode = if random.percent(25) { random.pick(&INTRICATE) } else { random.pick(served) };
    let procedures = match opcode {
        0x71..=0x7f => opcode as usize - 0x70 + random.below(3),
        _ => random.within(1..=3),
    };
    let procedures = procedures.max(1);
    let mut code = vec![0; 2 * procedures];
    for procedure in 1..procedures {
        let entry = code.len();
        set_entry(&mut code, procedure, entry);
        code.extend([0xe8, 0, 0, 0xe9]);
    }
    let entry = code.len();
    set_entry(&mut code, 0, entry);
    code.extend(of_opcode(random, opcode));
    if random.percent(90) {
        code.extend([0xff; 30]);
    }
    code
}

/// Makes code whose procedure 0 begins with a LOAD_C.w that has an external instruction inside it,
/// right after its opcode: it is not cut there, so that any library number may stand in it.
pub fn hidden(random: &mut Random) -> Vec<u8> {
    let opcode = random.pick(&EXTERNAL) as u8;
    let library = random.pick(&[0, 1, 1, 2, 3, 15, 16, 255]);
    vec![0, 2, 0x84, opcode, library, small_byte(random), 0xff, 0xff, 0xe9]
}

fn access_opcode(random: &mut Random) -> u8 {
    match random.below(20) {
        0 => random.byte(),
        1..=12 => random.within(0x10..=0x6f) as u8,
        _ => random.pick(&ACCESSES),
    }
}

fn operands(random: &mut Random, opcode: u8) -> Vec<u8> {
    match opcode {
        0x80 | 0x82 | 0x85..=0x87 | 0x8d..=0x8f | 0x92 | 0x94..=0x96 | 0xe5 => {
            vec![small_byte(random)]
        }
        0xda | 0xdc | 0xde | 0xdf => vec![small_byte(random)],
        0x9e => vec![random.pick(&[0, 1, 1, 2, 3, 5, 255])],
        0x81 | 0x83 | 0x88 | 0x90 | 0x93 | 0x97 | 0xdb | 0xdd | 0xe0 => halfword(random),
        0x84 => random.word().to_be_bytes().to_vec(),
        0xe8 => vec![random.pick(&[0, 0, 1, 2, 3, 255]), small_byte(random)],
        0x89 | 0x91 | 0x98 => vec![random.pick(&[1, 1, 2, 3, 0]), small_byte(random)],
        0xe6 => vec![random.pick(&[1, 1, 2, 3, 0]), random.pick(&[1, 1, 1, 2, 3, 0, 255])],
        _ => vec![],
    }
}

fn small_byte(random: &mut Random) -> u8 {
    match random.below(10) {
        0..=6 => random.below(12) as u8,
        7 | 8 => (random.below(12) as u8).wrapping_neg(),
        _ => random.byte(),
    }
}

fn halfword(random: &mut Random) -> Vec<u8> {
    let value = match random.below(10) {
        0..=6 => random.below(24) as u16,
        7 | 8 => (random.below(24) as u16).wrapping_neg(),
        _ => random.bits() as u16,
    };
    value.to_be_bytes().to_vec()
}

fn switch_operands(random: &mut Random, ranges: bool) -> Vec<u8> {
    let entries = random.below(4);
    let mut bytes = (entries as u16).to_be_bytes().to_vec();
    let distances = if ranges { 2 } else { 3 + entries };
    for _ in 0..distances {
        bytes.extend(halfword(random));
    }
    if ranges {
        for _ in 0..entries {
            bytes.extend(random.word().to_be_bytes());
            bytes.extend(random.word().to_be_bytes());
            bytes.extend(halfword(random));
        }
    }
    bytes
}

/// Code with a few procedures of random instructions.
pub fn soup(random: &mut Random) -> Vec<u8> {
    let procedures = random.pick(&[1, 1, 2, 3]);
    let mut code = vec![0; 2 * procedures];
    for procedure in (1..procedures).chain([0]) {
        let entry = code.len();
        set_entry(&mut code, procedure, entry);
        if procedure > 0 && random.percent(80) {
            code.extend([0xe8, random.below(3) as u8, random.below(3) as u8]);
        }
        for _ in 0..random.within(1..=8) {
            code.extend(instruction(random));
        }
        if random.percent(70) {
            code.push(0xe9);
        }
    }
    code
}

/// Code that is cut into regions but has any bytes in them.
pub fn byte_soup(random: &mut Random) -> Vec<u8> {
    let mut code = super::record::code_of_any_bytes(random);
    let table = if code[..2] == [0, 2] { 2 } else { usize::from(code[3]).max(4) };
    for byte in code.iter_mut().skip(table) {
        if random.percent(80) {
            *byte = opcode(random);
        }
    }
    code
}

/// Places of the instructions of a region, up to the first bad one.
pub fn starts(code: &[u8], region: Region) -> Vec<usize> {
    cut(code, region).flatten().map(|placed| placed.place).collect()
}
