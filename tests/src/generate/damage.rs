//! Damage to programs: bytes lost or changed, and single instructions exchanged. Also jumps
//! given other targets, in ways that the check still accepts.

use super::instructions::{instruction, opcode, starts};
use super::program::Program;
use crate::check::{examine, StackMaps};
use crate::random::Random;
use crate::record::Record;
use crate::set::{Lent, Set};

/// Changes code or results list in one place.
pub fn damage(random: &mut Random, program: &mut Program) {
    match random.below(10) {
        0 => damage_results(random, &mut program.results),
        1..=3 => damage_code_bytes(random, &mut program.parts.code),
        _ => damage_instruction(random, program),
    }
}

fn damage_results(random: &mut Random, results: &mut Vec<u8>) {
    if results.is_empty() {
        return results.push(0);
    }
    let index = random.below(results.len());
    match random.below(4) {
        0 => results.push(0),
        1 => drop(results.pop()),
        2 => results[index] = random.pick(&[0, 1, 2, 3, 255]),
        // A sound list that the code may not agree with.
        _ => results[index] = if index == 0 { 0 } else { random.below(3) as u8 },
    }
}

fn damage_code_bytes(random: &mut Random, code: &mut Vec<u8>) {
    if code.len() < 3 {
        return;
    }
    let at = random.within(2..=code.len() - 1);
    match random.below(6) {
        0 => code[at] = random.byte(),
        1 => code[at] = opcode(random),
        2 => code[at] ^= 1 << random.below(8),
        3 => drop(code.remove(at)),
        4 => {
            let byte = opcode(random);
            code.insert(at, byte);
        }
        _ => code.truncate(at),
    }
}

/// Exchanges one instruction, as a rule for one of the same length.
fn damage_instruction(random: &mut Random, program: &mut Program) {
    let record = program.parts.assemble();
    let Ok(record) = Record::read(&record) else { return };
    let region = random.pick(&record.regions());
    let places = starts(record.code, region);
    if places.is_empty() {
        return;
    }
    let code = &mut program.parts.code;
    let place = random.pick(&places);
    let index = places.iter().position(|&start| start == place).unwrap_or(0);
    let next = places.get(index + 1).copied().unwrap_or(region.end);
    if random.percent(40) && retarget(random, &mut code[place..next], place, &places) {
        return;
    }
    if random.percent(20) {
        // ENTER or CALL where there was none.
        let bytes = random.pick(&[[0xe8, 0, 1], [0xe8, 2, 0], [0xe5, 0, 0xff], [0xe5, 1, 0xff]]);
        return replace(code, place, next, &bytes);
    }
    for _ in 0..20 {
        let bytes = instruction(random);
        if bytes.len() <= next - place || random.percent(2) {
            return replace(code, place, next, &bytes);
        }
    }
}

/// Puts an instruction over others and fills up to `next` with NOP.
fn replace(code: &mut [u8], place: usize, next: usize, bytes: &[u8]) {
    let end = next.max((place + bytes.len()).min(code.len()));
    let (over, rest) = code[place..end].split_at_mut(bytes.len().min(end - place));
    over.copy_from_slice(&bytes[..over.len()]);
    rest.fill(0xff);
}

/// Gives a jump, ITER, POP, CALL, ENTER or switch another operand; is it one of these?
fn retarget(random: &mut Random, bytes: &mut [u8], place: usize, places: &[usize]) -> bool {
    // Mostly the start of an instruction, now and then a byte beside it.
    let beside = if random.percent(20) { 1 } else { 0 };
    let target = (random.pick(places) + beside) as i64 - place as i64;
    match bytes[0] {
        0xda | 0xdc | 0xde | 0xdf => bytes[1] = target as u8,
        0xdb | 0xdd | 0xe0 => bytes[1..3].copy_from_slice(&(target as u16).to_be_bytes()),
        0x9e => bytes[1] = bytes[1].wrapping_add(random.pick(&[1, 255])),
        0xe5 | 0xe8 => bytes[1] = random.pick(&[0, 1, 2, 3, 255]),
        0xe2 => {
            let at = 3 + 2 * random.below((bytes.len() - 3) / 2);
            bytes[at..at + 2].copy_from_slice(&(target as u16).to_be_bytes());
        }
        0xe3 => {
            let range = random.below((bytes.len() - 7) / 10 + 1);
            let at = if range == 0 { random.pick(&[3, 5]) } else { 5 + 10 * range };
            bytes[at..at + 2].copy_from_slice(&(target as u16).to_be_bytes());
        }
        0x71..=0x7f => bytes[0] = random.within(0x71..=0x7f) as u8,
        _ => return false,
    }
    true
}

/// Gives jumps of an accepted program other targets that have the same slots.
pub fn reroute(random: &mut Random, program: &mut Program) {
    let record = program.parts.assemble();
    let Ok(set) = Set::read(&[Lent::main(&record, &program.results)]) else { return };
    reroute_module(random, &set, 0, &mut program.parts.code);
}

/// Does the same for the code of a module of a set.
pub fn reroute_module(random: &mut Random, set: &Set, own: usize, code: &mut [u8]) {
    let Ok(maps) = examine(set, own) else { return };
    let record = &set.modules[own].record;
    for region in record.regions() {
        let places = starts(record.code, region);
        for &place in &places {
            if random.percent(40) {
                reroute_jump(random, code, place, &places, &maps);
            }
        }
    }
}

fn reroute_jump(
    random: &mut Random,
    code: &mut [u8],
    place: usize,
    places: &[usize],
    maps: &StackMaps,
) {
    let (old, wide) = match code[place] {
        0xda | 0xdc => (i64::from(code[place + 1] as i8), false),
        0xdb | 0xdd => (i64::from(i16::from_be_bytes([code[place + 1], code[place + 2]])), true),
        _ => return,
    };
    let old_target = (place as i64 + old) as usize;
    let alike: Vec<usize> =
        places.iter().copied().filter(|&other| maps.at(other) == maps.at(old_target)).collect();
    if maps.at(old_target).is_none() || alike.is_empty() {
        return;
    }
    let distance = random.pick(&alike) as i64 - place as i64;
    if wide {
        code[place + 1..place + 3].copy_from_slice(&(distance as i16).to_be_bytes());
    } else if let Ok(distance) = i8::try_from(distance) {
        code[place + 1] = distance as u8;
    }
}
