//! Random sets of modules (02, K1), nearly all of which the checks accept, and damage to them.

use super::body::{Library, Scope};
use super::damage::{damage as damage_program, reroute_module};
use super::instructions;
use super::program::{self, Program, FLAWED};
use super::record::{damage_parts, version_table, Parts};
use crate::cases::Module;
use crate::cut::library_bytes;
use crate::issue::wraps;
use crate::machine::LARGEST_MEMORY;
use crate::random::Random;
use crate::record::{Record, HEADER_WORDS, LARGEST};
use crate::set::{Lent, Set, MOST_MODULES};

/// The programs of a set with their SIDs, the main one first.
#[derive(Clone, Debug)]
pub struct Programs {
    pub sids: Vec<u32>,
    pub programs: Vec<Program>,
}

impl Programs {
    pub fn modules(&self) -> Vec<Module> {
        let module = |(sid, program): (&u32, &Program)| Module {
            sid: *sid,
            record: program.parts.assemble(),
            results: program.results.clone(),
        };
        self.sids.iter().zip(&self.programs).map(module).collect()
    }
}

/// Makes a set of structured programs that call each other.
pub fn usual(random: &mut Random) -> Programs {
    structured(random, 0)
}

/// Makes a set that would be accepted if labels were words like any other.
pub fn flawed(random: &mut Random) -> Programs {
    structured(random, FLAWED)
}

fn structured(random: &mut Random, flaw: usize) -> Programs {
    let count = module_count(random);
    let versions: Vec<_> = (0..count).map(|_| version_table(random)).collect();
    let mut scopes: Vec<Scope> = Vec::new();
    for (number, version) in versions.iter().enumerate() {
        scopes.push(scope(random, number, flaw, wraps(version.as_flattened())));
    }
    let imports: Vec<_> = (0..count).map(|own| imports(random, own, count)).collect();
    let offered: Vec<Library> = scopes.iter().map(library).collect();
    for (scope, imports) in scopes.iter_mut().zip(&imports) {
        scope.libraries = imports.iter().map(|&import| offered[import].clone()).collect();
    }
    let mut programs = Vec::new();
    for (scope, version) in scopes.iter().zip(versions) {
        let (fuel, nest) = program::size(random);
        let (fuel, nest) = if count > 4 { (fuel / 2, nest / 2) } else { (fuel, nest) };
        programs.push(program::of_scope(random, scope, version, fuel, nest));
    }
    linked(random, programs, &imports)
}

/// Gives programs their SIDs, import lists and relocation tables.
fn linked(random: &mut Random, mut programs: Vec<Program>, imports: &[Vec<usize>]) -> Programs {
    let sids = sids(random, programs.len());
    for (Program { parts, .. }, imports) in programs.iter_mut().zip(imports) {
        parts.imports = imports.iter().map(|&import| sids[import]).collect();
        relocate(random, parts);
    }
    Programs { sids, programs }
}

fn module_count(random: &mut Random) -> usize {
    match random.below(40) {
        0..=2 => 1,
        3..=26 => random.within(2..=3),
        27..=36 => random.within(4..=6),
        37 | 38 => random.within(7..=MOST_MODULES - 1),
        _ => MOST_MODULES,
    }
}

/// Makes a scope. A library mostly has procedures besides its procedure 0.
fn scope(random: &mut Random, number: usize, flaw: usize, wraps: bool) -> Scope {
    loop {
        let scope = program::scope(random, flaw, wraps);
        if number == 0 || scope.signatures.len() > 1 || random.percent(15) {
            return scope;
        }
    }
}

fn library(scope: &Scope) -> Library {
    Library { signatures: scope.signatures.clone(), globals: scope.globals }
}

/// Picks modules to import, mostly later ones, so that calls end. A library may import itself, and
/// a list may name a module twice.
fn imports(random: &mut Random, own: usize, count: usize) -> Vec<usize> {
    if count == 1 {
        return vec![];
    }
    let later = own + 1;
    let sizes = [1, 2, 0, 1, 3, LARGEST[0] as usize];
    let size = sizes[random.below(if later < count { 6 } else { 3 })];
    let import = |_| match later < count && random.percent(90) {
        true => random.within(later..=count - 1),
        false => random.within(1..=count - 1),
    };
    (0..size).map(import).collect()
}

/// Makes different SIDs for the libraries; the main module's counts for nothing.
fn sids(random: &mut Random, count: usize) -> Vec<u32> {
    let mut sids = vec![random.word()];
    while sids.len() < count {
        let sid = random.word();
        if !sids[1..].contains(&sid) {
            sids.push(sid);
        }
    }
    sids
}

/// Writes the relocation table of the code, in any order, now and then with an entry twice.
pub fn relocate(random: &mut Random, parts: &mut Parts) {
    parts.relocation.clear();
    let bytes = parts.assemble();
    let Ok(record) = Record::read(&bytes) else { return };
    let mut places = library_bytes(&record);
    while !places.is_empty() {
        let place = places.swap_remove(random.below(places.len()));
        parts.relocation.push(place as u32);
    }
    if !parts.relocation.is_empty() && random.percent(5) {
        let again = random.pick(&parts.relocation);
        parts.relocation.push(again);
    }
    parts.relocation.truncate(LARGEST[4] as usize);
}

/// Makes a set of given codes, whose external instructions get library numbers that their import
/// lists have.
pub fn of_codes(random: &mut Random, codes: Vec<Vec<u8>>) -> Programs {
    let count = codes.len();
    let programs = codes.into_iter().map(|code| program::of_code(random, code)).collect();
    let imports: Vec<_> = (0..count).map(|own| imports(random, own, count)).collect();
    let mut set = linked(random, programs, &imports);
    for Program { parts, .. } in &mut set.programs {
        number_libraries(random, parts);
    }
    set
}

/// Gives the library bytes numbers of the import list; with no imports, NOP stands instead.
fn number_libraries(random: &mut Random, parts: &mut Parts) {
    let imports = parts.imports.len();
    for &place in &parts.relocation {
        let place = place as usize;
        if imports > 0 {
            parts.code[place] = random.within(1..=imports) as u8;
        } else {
            parts.code[place - 1..place + 2].fill(0xff);
        }
    }
    if imports == 0 {
        parts.relocation.clear();
    }
}

/// Makes a set of a few modules of random instructions.
pub fn soup(random: &mut Random) -> Programs {
    let count = random.pick(&[1, 2, 2, 3, 4]);
    let codes = (0..count).map(|_| instructions::soup(random)).collect();
    of_codes(random, codes)
}

/// Makes a set whose procedures 0 begin with an instruction of one of these opcodes, or have an
/// external one hidden in another.
pub fn single(random: &mut Random, opcodes: &[u32]) -> Programs {
    let count = random.pick(&[1, 2, 2, 3, 4, 6]);
    let code = |_| match random.percent(10) {
        true => instructions::hidden(random),
        false => instructions::single(random, opcodes),
    };
    let codes = (0..count).map(code).collect();
    of_codes(random, codes)
}

/// Gives jumps of one module of an accepted set other targets that have the same slots.
pub fn reroute(random: &mut Random, set: &mut Programs) {
    let modules = set.modules();
    let lent: Vec<Lent> = modules.iter().map(Module::lend).collect();
    let Ok(read) = Set::read(&lent) else { return };
    let own = random.below(lent.len());
    reroute_module(random, &read, own, &mut set.programs[own].parts.code);
}

/// Changes a set in one place.
pub fn damage(random: &mut Random, set: &mut Programs) {
    let number = random.below(set.programs.len());
    match random.below(16) {
        0..=5 => {
            let program = &mut set.programs[number];
            damage_program(random, program);
            if random.percent(75) {
                relocate(random, &mut program.parts);
            }
        }
        6..=8 => damage_relocation(random, &mut set.programs[number].parts),
        9 => damage_library(random, &mut set.programs[number].parts),
        10 => damage_imports(random, &mut set.programs[number].parts, &set.sids),
        11 | 12 => damage_sids(random, &mut set.sids),
        13 => {
            let count = MOST_MODULES + random.below(3);
            crowd(random, set, count);
        }
        14 if number > 0 => {
            set.programs.remove(number);
            set.sids.remove(number);
        }
        _ => damage_parts(random, &mut set.programs[number].parts),
    }
}

/// Loses an entry, or has one that it should not have.
fn damage_relocation(random: &mut Random, parts: &mut Parts) {
    let size = parts.code.len();
    if parts.relocation.is_empty() || random.percent(30) {
        let places = [random.below(size + 1) as u32, size as u32, random.word(), u32::MAX];
        let entry = match parts.relocation.first() {
            Some(entry) if random.percent(50) => entry + 1,
            _ => random.pick(&places),
        };
        return parts.relocation.push(entry);
    }
    let index = random.below(parts.relocation.len());
    match random.below(4) {
        0 => drop(parts.relocation.remove(index)),
        1 => parts.relocation[index] ^= 1 << random.below(32),
        2 => parts.relocation[index] = parts.relocation[index].wrapping_add(random.pick(&[1, 2])),
        _ => parts.relocation[index] = parts.relocation[0].wrapping_sub(1),
    }
}

/// Writes a library number that is 0 or past the import list, or another one of it.
fn damage_library(random: &mut Random, parts: &mut Parts) {
    let Some(&place) = parts.relocation.first() else { return };
    let imports = parts.imports.len();
    let numbers = [0, imports as u8 + 1, 255, random.within(1..=imports.max(1)) as u8];
    if let Some(byte) = parts.code.get_mut(place as usize) {
        *byte = random.pick(&numbers);
    }
}

/// Names a SID that no library has, or has one import fewer or more.
fn damage_imports(random: &mut Random, parts: &mut Parts, sids: &[u32]) {
    match parts.imports.last_mut() {
        Some(import) if random.percent(50) => *import = random.word(),
        Some(_) if random.percent(50) => drop(parts.imports.pop()),
        _ => {
            let import = if random.percent(50) { random.word() } else { random.pick(sids) };
            parts.imports.push(import);
        }
    }
}

/// Gives a module another SID, often that of a neighbour.
fn damage_sids(random: &mut Random, sids: &mut [u32]) {
    let number = random.below(sids.len());
    sids[number] = if random.percent(60) { random.pick(sids) } else { random.word() };
}

/// Makes the most modules of it, with data frames that about fill the largest memory, and some of
/// the longest codes.
pub fn stretch(random: &mut Random, set: &mut Programs) {
    crowd(random, set, MOST_MODULES);
    let mut left = LARGEST_MEMORY + random.below(5) - 2;
    for (number, Program { parts, .. }) in set.programs.iter_mut().enumerate() {
        let words = left / (MOST_MODULES - number);
        parts.globals = (words - parts.constants.len()) as u32 - HEADER_WORDS;
        left -= words;
        if random.percent(30) {
            parts.code.resize(LARGEST[1] as usize, 0xff);
        }
    }
}

/// Adds modules up to a count.
fn crowd(random: &mut Random, set: &mut Programs, count: usize) {
    while set.programs.len() < count {
        let sid = random.bits();
        if !set.sids.contains(&sid) {
            set.sids.push(sid);
            set.programs.push(plain());
        }
    }
}

/// Makes a program that returns at once.
fn plain() -> Program {
    let parts = Parts { code: vec![0, 2, 0xe9], ..Parts::default() };
    Program { parts, results: vec![0] }
}
