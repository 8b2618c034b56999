//! Random records around given code, and damage to them.

use crate::random::Random;
use crate::record::LARGEST;
use std::ops::RangeInclusive;

/// A record's parts, to be put together with whatever header sizes they have.
#[derive(Clone, Debug, Default)]
pub struct Parts {
    pub imports: Vec<u32>,
    pub code: Vec<u8>,
    pub globals: u32,
    pub constants: Vec<u32>,
    pub relocation: Vec<u32>,
    pub version: Vec<[u8; 4]>,
    pub source: Vec<u32>,
}

impl Parts {
    pub fn assemble(&self) -> Vec<u8> {
        let sizes = [
            self.imports.len() as u32,
            self.code.len() as u32,
            self.globals,
            self.constants.len() as u32,
            self.relocation.len() as u32,
            self.version.len() as u32,
            self.source.len() as u32,
        ];
        let mut bytes = big_endian(&sizes);
        bytes.extend(big_endian(&self.imports));
        bytes.extend(&self.code);
        bytes.extend(big_endian(&self.constants));
        bytes.extend(big_endian(&self.relocation));
        bytes.extend(self.version.as_flattened());
        bytes.extend(big_endian(&self.source));
        bytes
    }
}

pub fn big_endian(words: &[u32]) -> Vec<u8> {
    words.iter().flat_map(|word| word.to_be_bytes()).collect()
}

/// Sound version and source tables around code.
pub fn around(random: &mut Random, code: Vec<u8>, globals: u32, constants: Vec<u32>) -> Parts {
    let version = version_table(random);
    let source = source_table(random, code.len());
    Parts { code, globals, constants, version, source, ..Parts::default() }
}

/// Makes a sound version table. Only its first word counts; those behind it name issues too, or are any bytes.
pub fn version_table(random: &mut Random) -> Vec<[u8; 4]> {
    let count = random.pick(&[0, 0, 0, 1, 1, 1, 2, 16]);
    let word = |index| match index == 0 || random.percent(50) {
        true => issue(random),
        false => random.bits().to_be_bytes(),
    };
    (0..count).map(word).collect()
}

/// Makes a version word. Half of them name an issue before 3/-, whose unsigned results wrap (02, K11);
/// some others are 3/- or near it, or differ from an old one in the first digit alone.
fn issue(random: &mut Random) -> [u8; 4] {
    let (tens, units) = match random.below(10) {
        0..=4 => (random.pick(b" 0"), random.pick(b"012")),
        5 | 6 => (random.pick(b" 0"), b'3'),
        7 => (random.pick(b"129"), random.pick(b"0129")),
        _ => (random.pick(b" 0123456789"), random.pick(b"0123456789")),
    };
    [tens, units, b'/', random.pick(b"--ABCMXYZ")]
}

/// Pairs of rising offsets and any lines.
fn source_table(random: &mut Random, code_size: usize) -> Vec<u32> {
    let most = random.pick(&[0, 1, 3, 8, 8, 30]);
    let mut offsets: Vec<usize> =
        (0..most.min(code_size)).map(|_| random.below(code_size)).collect();
    offsets.sort_unstable();
    offsets.dedup();
    offsets.into_iter().flat_map(|offset| [offset as u32, random.word()]).collect()
}

/// Code with an entry table and random bytes after it. The table is sound, but for one that is
/// now and then an entry too long.
pub fn code_of_any_bytes(random: &mut Random) -> Vec<u8> {
    let procedures = match random.below(20) {
        0..=9 => 1,
        10..=17 => random.within(2..=6),
        18 => random.within(7..=60),
        _ => random.pick(&[255, 256, 257]),
    };
    let table = 2 * procedures;
    let rest = procedures + random.pick(&[0, 1, 5, 20, 60]);
    let mut code = vec![0; table];
    code.extend(random.bytes(rest));
    // Procedure 1 begins right after the table; the others and then 0 rise.
    let mut starts: Vec<usize> = (1..rest).collect();
    while starts.len() > procedures - 1 {
        starts.remove(random.below(starts.len()));
    }
    let order = (1..procedures).chain([0]);
    let places = [0].into_iter().chain(starts);
    for (procedure, start) in order.zip(places) {
        set_entry(&mut code, procedure, table + start);
    }
    code
}

pub fn set_entry(code: &mut [u8], procedure: usize, entry: usize) {
    code[2 * procedure..2 * procedure + 2].copy_from_slice(&(entry as u16).to_be_bytes());
}

/// A sound record of random parts.
pub fn sound(random: &mut Random) -> Parts {
    let code = code_of_any_bytes(random);
    let globals = random.pick(&[0, 1, 2, 5, 20, 1023, 1024]);
    let constants = random.pick(&[0, 0, 1, 3, 10]);
    let constants = random.words(constants);
    around(random, code, globals, constants)
}

/// Damage to the parts: sizes and contents stay in step.
pub fn damage_parts(random: &mut Random, parts: &mut Parts) {
    match random.below(8) {
        0 => parts.imports = words_up_to(random, &[1, 2, 16, 17]),
        1 => parts.relocation = words_up_to(random, &[1, 2, 40]),
        2 => damage_version(random, parts),
        3 | 4 => damage_source(random, parts),
        5 => {
            let size = random.below(6);
            parts.code.truncate(size);
        }
        6 => damage_entries(random, &mut parts.code),
        _ => parts.globals = random.pick(&[1024, 1025, 1 << 16, 1 << 31, u32::MAX]),
    }
}

fn words_up_to(random: &mut Random, counts: &[usize]) -> Vec<u32> {
    let count = random.pick(counts);
    random.words(count)
}

fn damage_version(random: &mut Random, parts: &mut Parts) {
    if parts.version.is_empty() {
        parts.version.push(*b" 3/-");
    }
    let issue = random.pick(&[0, 0, 0, 0, parts.version.len() - 1]);
    let place = random.below(4);
    parts.version[issue][place] = random.pick(b" 09/-AZ@[:;.a\x00\xad\xff,");
}

fn damage_source(random: &mut Random, parts: &mut Parts) {
    let code_size = parts.code.len() as u32;
    let pairs = parts.source.len() / 2;
    match random.below(5) {
        0 => parts.source.push(0),
        1 => parts.source.extend([code_size, 1]),
        2 if pairs >= 2 => {
            let pair = random.within(1..=pairs - 1);
            parts.source[2 * pair] = parts.source[2 * pair - 2];
        }
        3 if pairs >= 2 => parts.source.swap(0, 2 * (pairs - 1)),
        _ if pairs >= 1 => {
            let pair = random.below(pairs);
            parts.source[2 * pair] =
                random.pick(&[0, code_size.saturating_sub(1), code_size, code_size + 1, u32::MAX]);
        }
        _ => parts.source.extend([1, 1, 0, 1]),
    }
}

fn damage_entries(random: &mut Random, code: &mut [u8]) {
    if code.len() < 4 {
        return;
    }
    let entries = (code[3] as usize / 2).clamp(1, code.len() / 2);
    let procedure = random.below(entries);
    let old = usize::from(u16::from_be_bytes([code[2 * procedure], code[2 * procedure + 1]]));
    let size = code.len();
    let entry = match random.below(10) {
        0 => 0,
        1 => random.pick(&[2, 3, 4, 5, 6, 512, 514, 0xffff]),
        2 => size,
        3 => size - 1,
        4 => old + 1,
        5 => old.saturating_sub(1),
        6 => old + 2,
        7 => old.saturating_sub(2),
        _ => random.below(size + 2),
    };
    set_entry(code, procedure, entry);
}

/// Damage to the assembled bytes.
pub fn damage_bytes(random: &mut Random, bytes: &mut Vec<u8>) {
    match random.below(6) {
        0 if bytes.len() >= 28 => damage_header(random, bytes),
        1 => {
            let length = random.below(bytes.len() + 1);
            bytes.truncate(length);
        }
        2 => {
            let length = bytes.len() - random.below(9).min(bytes.len());
            bytes.truncate(length);
        }
        3 => {
            let extra = random.within(1..=9);
            bytes.extend(random.bytes(extra));
        }
        4 if !bytes.is_empty() => {
            let place = random.below(bytes.len());
            bytes[place] = random.byte();
        }
        _ => bytes.truncate(28 + random.below(3)),
    }
}

fn damage_header(random: &mut Random, bytes: &mut [u8]) {
    let index = random.below(7);
    let old = u32::from_be_bytes(bytes[4 * index..4 * index + 4].try_into().expect("four bytes"));
    let word = match random.below(7) {
        0 => old.wrapping_add(1),
        1 => old.wrapping_sub(1),
        2 => LARGEST[index],
        3 => LARGEST[index] + 1,
        4 => u32::MAX - random.below(8) as u32,
        5 => old | (1 << random.within(16..=31)),
        _ => random.bits(),
    };
    bytes[4 * index..4 * index + 4].copy_from_slice(&word.to_be_bytes());
}

/// A record or what was meant to be one: sound, damaged once or twice, or mere bytes.
pub fn any(random: &mut Random) -> Vec<u8> {
    if random.percent(4) {
        let length = random.pick(&[0, 1, 4, 27, 28, 29, 32, 60, 200]);
        return random.bytes(length);
    }
    let mut parts = sound(random);
    let damages = random.pick(&[0, 1, 1, 1, 1, 2]);
    for _ in 0..damages {
        if random.percent(70) {
            damage_parts(random, &mut parts);
        }
    }
    let mut bytes = parts.assemble();
    if random.percent(25) {
        damage_bytes(random, &mut bytes);
    }
    bytes
}

/// A sound record with source pairs at any share of its code bytes, up to all. Neighbours often have
/// the same line.
pub fn with_lines(random: &mut Random) -> Vec<u8> {
    let mut parts = sound(random);
    let share = random.pick(&[2, 10, 50, 90, 100]);
    parts.source.clear();
    for offset in 0..parts.code.len() as u32 {
        if random.percent(share) {
            parts.source.extend([offset, random.within(0..=3) as u32]);
        }
    }
    parts.assemble()
}

/// A sound record with every size at its largest.
pub fn largest(random: &mut Random) -> Vec<u8> {
    largest_parts(random).assemble()
}

fn largest_parts(random: &mut Random) -> Parts {
    let mut code = code_of_any_bytes(random);
    code.resize(LARGEST[1] as usize, 0xff);
    let constants = random.words(LARGEST[3] as usize);
    let mut parts = around(random, code, LARGEST[2], constants);
    parts.version = vec![*b"12/B"; LARGEST[5] as usize];
    let stride = LARGEST[1] / (LARGEST[6] / 2);
    parts.source = (0..LARGEST[6] / 2).flat_map(|pair| [pair * stride, random.bits()]).collect();
    parts
}

/// A record whose sizes fit, with tables to be mended: a malformed version word, pairs that should
/// not stand among the others, and an odd word. Now and then it has what mending leaves alone:
/// imports, relocation, damaged entries.
pub fn worn(random: &mut Random) -> Vec<u8> {
    let mut parts = if random.percent(1) { largest_parts(random) } else { sound(random) };
    if random.percent(30) {
        damage_version(random, &mut parts);
    }
    for _ in 0..random.pick(&[0, 1, 1, 2, 5]) {
        insert_pair(random, &mut parts);
    }
    if random.percent(20) {
        parts.source.push(random.word());
    }
    parts.source.truncate(LARGEST[6] as usize);
    match random.below(20) {
        0 => parts.imports = words_up_to(random, &[1, 16]),
        1 => parts.relocation = words_up_to(random, &[1, 40]),
        2 => damage_entries(random, &mut parts.code),
        _ => {}
    }
    parts.assemble()
}

/// A record of almost the greatest length, with all its parts and a source table to be mended: near
/// its end, where byte places do not fit into 15 bits, and now and then anywhere.
pub fn long_and_worn(random: &mut Random) -> Vec<u8> {
    let mut parts = largest_parts(random);
    let mut size = |index: usize, less: usize| LARGEST[index] as usize - random.below(less + 1);
    let (imports, code, constants) = (size(0, 2), size(1, 7), size(3, 3));
    let (relocation, version, source) = (size(4, 7), size(5, 2), size(6, 1));
    parts.imports = random.words(imports);
    parts.relocation = random.words(relocation);
    parts.code.truncate(code);
    parts.constants.truncate(constants);
    parts.version.truncate(version);
    parts.source.truncate(source);
    if random.percent(10) {
        damage_version(random, &mut parts);
    }
    let pairs = parts.source.len() / 2;
    for _ in 0..random.pick(&[0, 1, 1, 2, 5]) {
        damage_pair(random, &mut parts, pairs - 10..=pairs - 1);
    }
    for _ in 0..random.pick(&[0, 0, 1, 5, 100]) {
        damage_pair(random, &mut parts, 1..=pairs - 1);
    }
    parts.assemble()
}

/// Another offset of a pair, but for the first.
fn damage_pair(random: &mut Random, parts: &mut Parts, among: RangeInclusive<usize>) {
    let at = 2 * random.within(among);
    parts.source[at] = offset_behind(random, parts.source[at - 2], parts.code.len() as u32);
}

/// A pair somewhere in the source table, at an offset near that before it, near the end of the code
/// or anywhere.
fn insert_pair(random: &mut Random, parts: &mut Parts) {
    let size = parts.code.len() as u32;
    let at = 2 * random.below(parts.source.len() / 2 + 1);
    let before = if at > 0 { parts.source[at - 2] } else { 0 };
    let offset = offset_behind(random, before, size);
    parts.source.splice(at..at, [offset, random.word()]);
}

fn offset_behind(random: &mut Random, before: u32, size: u32) -> u32 {
    let near = [before.saturating_sub(1), before, before.saturating_add(1)];
    match random.below(4) {
        0 => random.pick(&near),
        1 => random.pick(&[0, size.saturating_sub(1), size, size + 1, u32::MAX]),
        2 => random.below(size as usize) as u32,
        _ => random.word(),
    }
}
