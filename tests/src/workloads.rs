//! Programs for timing: endless loops for the machine, full-size code for the check.

use crate::cases::{Answer, Case, Module, Words};
use crate::check::examine;
use crate::cut::library_bytes;
use crate::generate::assembler::{Assembler, Branch, Range};
use crate::generate::program;
use crate::generate::record::{set_entry, Parts};
use crate::interface::REFERENCE;
use crate::random::Random;
use crate::record::{Record, LARGEST};
use crate::set::{Lent, Set, MOST_MODULES};

pub struct Workload {
    pub name: &'static str,
    pub record: Vec<u8>,
    pub results: Vec<u8>,
}

/// A set of modules (02, K1).
pub struct SetWorkload {
    pub name: &'static str,
    pub modules: Vec<Module>,
}

/// A record of procedures 1, 2, .. and then 0, given as code and number of results.
fn workload(name: &'static str, procedures: Vec<(Vec<u8>, u8)>) -> Workload {
    let (parts, results) = parts(procedures);
    Workload { name, record: parts.assemble(), results }
}

fn parts(procedures: Vec<(Vec<u8>, u8)>) -> (Parts, Vec<u8>) {
    let count = procedures.len();
    let mut code = vec![0; 2 * count];
    let mut results = vec![0; count];
    for (index, (body, result_words)) in procedures.into_iter().enumerate() {
        let procedure = (index + 1) % count;
        let entry = code.len();
        set_entry(&mut code, procedure, entry);
        results[procedure] = result_words;
        code.extend(body);
    }
    let constants = vec![7, 11, 13, 17];
    (Parts { code, globals: 16, constants, ..Parts::default() }, results)
}

/// The instructions, over and over.
fn repeated(write: impl FnOnce(&mut Assembler)) -> Vec<u8> {
    let mut code = Assembler::default();
    let top = code.label();
    code.mark(top);
    write(&mut code);
    code.branch(Branch::Jump, top, false);
    assembled(code)
}

fn assembled(code: Assembler) -> Vec<u8> {
    code.assemble().expect("workloads fit their distances")
}

/// Endless loops.
pub fn for_run() -> Vec<Workload> {
    vec![
        arithmetic(),
        calls(),
        stores(),
        outer_stores(),
        switches(),
        two_words(),
        for_loops(),
        booleans(),
        sets(),
    ]
}

/// g0 := (g0 * 3 + 7) mod 997; g1 := g0 < 500
fn arithmetic() -> Workload {
    let body = repeated(|code| {
        code.bytes(&[0x20, 0x03, 0xa2, 0x07, 0xa0, 0x83, 0x03, 0xe5, 0xa5, 0x50]);
        code.bytes(&[0x20, 0x83, 0x01, 0xf4, 0xc0, 0x51]);
    });
    workload("arithmetic", vec![(body, 0)])
}

/// g0 := f(5), where f has a parameter, a local word and a result
fn calls() -> Workload {
    let function = vec![0xe8, 1, 1, 0x10, 0x01, 0xa0, 0x41, 0x11, 0xe9];
    let body = repeated(|code| code.bytes(&[0x05, 0x71, 0x50]));
    workload("calls", vec![(function, 1), (body, 0)])
}

/// Through addresses of globals and of the running procedure's own words.
fn stores() -> Workload {
    let body = [0xe8, 0, 4].into_iter().chain(repeated(|code| {
        code.bytes(&[0x8e, 0, 0x05, 0x61, 0x8e, 1, 0x30, 0x50]);
        code.bytes(&[0x8d, 2, 0x06, 0x60, 0x8d, 0, 0x32, 0x41]);
    }));
    workload("stores", vec![(body.collect(), 0)])
}

/// Three calls deep, into a word of the outermost procedure: walks the links.
fn outer_stores() -> Workload {
    let inner = [0xe8, 1, 0].into_iter().chain(repeated(|code| {
        code.bytes(&[0x10, 0x05, 0x60, 0x10, 0x06, 0x60]);
    }));
    let middle = vec![0xe8, 1, 1, 0x10, 0x71, 0xe9];
    let outer = vec![0xe8, 1, 1, 0x10, 0x72, 0xe9];
    let main = vec![0xe8, 0, 4, 0x8d, 2, 0x73, 0xe9];
    workload("outer stores", vec![(inner.collect(), 0), (middle, 0), (outer, 0), (main, 0)])
}

/// g0 := (g0 + 1) mod 4 and a switch over it
fn switches() -> Workload {
    let body = repeated(|code| {
        code.bytes(&[0x20, 0x01, 0xa0, 0x04, 0xa5, 0x50, 0x20]);
        let (exit, otherwise) = (code.label(), code.label());
        let branches: Vec<_> = (0..4).map(|_| code.label()).collect();
        code.switch(exit, otherwise, branches.clone());
        for branch in branches {
            code.mark(branch);
            code.bytes(&[0x01, 0x51, 0xe4]);
        }
        code.mark(otherwise);
        code.bytes(&[0xe4]);
        code.mark(exit);
    });
    workload("switches", vec![(body, 0)])
}

fn two_words() -> Workload {
    let body = repeated(|code| {
        code.bytes(&[0xf5, 0x20, 0xf5, 0x52, 0xf5, 0x80, 1, 0xf5, 0x54]);
        code.bytes(&[0x8e, 0, 0xf5, 0x30, 0xf5, 0x56]);
    });
    workload("two words", vec![(body, 0)])
}

/// for g0 := 1 to 100 do g1 := g0
fn for_loops() -> Workload {
    let body = repeated(|code| {
        let exit = code.label();
        code.bytes(&[0x8e, 0, 0x01, 0x82, 100, 0x01]);
        code.branch(Branch::Iter, exit, false);
        code.bytes(&[0x20, 0x51, 0xe1]);
        code.mark(exit);
    });
    workload("for loops", vec![(body, 0)])
}

/// g0 := (g0 + 1) mod 8; g1 := g0 < 3 or g0 >= 6; if g1 and not g0 = 2 then g2 := g0; a switch over ranges of g0
fn booleans() -> Workload {
    let body = repeated(|code| {
        code.bytes(&[0x20, 0x01, 0xa0, 0x08, 0xa5, 0x50]);
        let (either, both, skip) = (code.label(), code.label(), code.label());
        code.bytes(&[0x20, 0x03, 0xc0]);
        code.branch(Branch::JumpT, either, false);
        code.bytes(&[0x20, 0x06, 0xc3]);
        code.mark(either);
        code.bytes(&[0x51, 0x21]);
        code.branch(Branch::JumpF, both, false);
        code.bytes(&[0x20, 0x02, 0xbe, 0xd7]);
        code.mark(both);
        code.branch(Branch::JumpC, skip, false);
        code.bytes(&[0x20, 0x52]);
        code.mark(skip);
        code.bytes(&[0x20]);
        let (exit, otherwise) = (code.label(), code.label());
        let branches = [code.label(), code.label(), code.label()];
        let bounds = [(0, 1), (2, 4), (5, 6)];
        let ranges = bounds.into_iter().zip(branches).map(|((lower, upper), branch)| Range {
            lower,
            upper,
            to: Some(branch),
        });
        code.switch_x(exit, otherwise, ranges.collect());
        for branch in branches.into_iter().chain([otherwise]) {
            code.mark(branch);
            code.bytes(&[0x01, 0x53, 0xe4]);
        }
        code.mark(exit);
    });
    workload("booleans", vec![(body, 0)])
}

/// Union, difference, intersection, both inclusions and TEST of one-word sets, and the negative of a number.
fn sets() -> Workload {
    let body = repeated(|code| {
        code.bytes(&[0x20, 0x83, 0x0f, 0xf0, 0xb8, 0x82, 0x3c, 0xb9, 0x83, 0x7f, 0xff, 0xba, 0x50]);
        code.bytes(&[0x20, 0x0c, 0xd0, 0x51, 0x20, 0x0c, 0xd1, 0x51, 0x05, 0x20, 0xd2, 0x51]);
        code.bytes(&[0x22, 0x01, 0xa0, 0xa6, 0x52]);
    });
    workload("sets", vec![(body, 0)])
}

/// Makes endless loops over sets of modules.
pub fn for_set_run() -> Vec<SetWorkload> {
    vec![library()]
}

/// g0 := library.f(5), where f is as in `calls`; library.g1 := library.g0
fn library() -> SetWorkload {
    const SID: u32 = 7;
    let function = vec![0xe8, 1, 1, 0x10, 0x01, 0xa0, 0x41, 0x11, 0xe9];
    let body = repeated(|code| {
        code.bytes(&[0x05, 0xe6, 1, 1, 0x50, 0x89, 1, 0, 0x98, 1, 1]);
    });
    let (mut main, main_results) = parts(vec![(body, 0)]);
    main.imports = vec![SID];
    // The library bytes, behind an entry table of two bytes.
    main.relocation = vec![4, 8, 11];
    let (library, results) = parts(vec![(function, 1), (vec![0xe9], 0)]);
    let main = Module { sid: 0, record: main.assemble(), results: main_results };
    let library = Module { sid: SID, record: library.assemble(), results };
    SetWorkload { name: "library", modules: vec![main, library] }
}

/// Makes sets of modules whose checks take long.
pub fn for_set_check() -> Vec<SetWorkload> {
    vec![largest_set()]
}

/// Sixteen modules with code and tables of full size, each with external instructions throughout.
fn largest_set() -> SetWorkload {
    let sids = || 1..MOST_MODULES as u32;
    let module = |sid: u32| {
        let (mut parts, results) = parts(vec![(vec![0xe8, 0, 0, 0xe9], 0), (externals(), 0)]);
        parts.globals = 16;
        parts.constants = vec![7; LARGEST[3] as usize];
        parts.imports = sids().cycle().take(LARGEST[0] as usize).collect();
        parts.version = vec![*b" 3/-"; LARGEST[5] as usize];
        parts.source = (0..LARGEST[6] / 2).flat_map(|pair| [4 * pair, pair]).collect();
        let linked = parts.assemble();
        let places = Record::read(&linked).map(|record| library_bytes(&record));
        let places = places.unwrap_or_default().into_iter().map(|place| place as u32);
        parts.relocation =
            places.collect::<Vec<_>>().into_iter().cycle().take(LARGEST[4] as usize).collect();
        Module { sid, record: parts.assemble(), results }
    };
    SetWorkload {
        name: "largest set",
        modules: [0].into_iter().chain(sids()).map(module).collect(),
    }
}

/// LOAD_E, STOR_E and CALL_E of each library in turn, up to the largest code behind two entries and
/// a procedure of four bytes.
fn externals() -> Vec<u8> {
    let room = LARGEST[1] as usize - 8;
    let uses = (1..MOST_MODULES as u8).cycle();
    let uses = uses.map(|library| [0x89, library, 0, 0x98, library, 1, 0xe6, library, 1]);
    let mut body: Vec<u8> = uses.take((room - 1) / 9).flatten().collect();
    body.resize(room - 1, 0xff);
    body.push(0xe9);
    body
}

/// A program of the mix as it was loaded, and the steps that it then takes.
pub struct Mixed {
    pub record: Vec<u8>,
    pub loaded: Words,
    pub steps: u32,
}

/// A hundred accepted programs as the tests generate them, each with at least a hundred steps.
pub fn mix() -> Vec<Mixed> {
    let mut random = Random::new(1);
    std::iter::from_fn(|| Some(mixed(&mut random))).flatten().take(100).collect()
}

fn mixed(random: &mut Random) -> Option<Mixed> {
    let program = program::usual(random);
    let record = program.parts.assemble();
    let set = Set::read(&[Lent::main(&record, &program.results)]).ok()?;
    examine(&set, 0).ok()?;
    let memory = vec![0; set.frames_at() as usize + 300];
    let parameters = random.words(program.parts.globals as usize);
    let stack = vec![0; 200];
    let case = Case::Load { record: record.clone(), parameters, memory, stack };
    let Answer::Load { number: 0, machine: loaded } = case.answer(&REFERENCE) else { return None };
    let case = Case::Run { record: record.clone(), budget: 1_000, machine: loaded.clone() };
    match case.answer(&REFERENCE) {
        Answer::Run { ended: Ok([_, _, steps]), .. } if steps >= 100 => {
            Some(Mixed { record, loaded, steps })
        }
        _ => None,
    }
}

/// Accepted code, each close to the largest size or to the most slots.
pub fn for_check() -> Vec<Workload> {
    vec![straight(), jumps(), many_procedures(), nested_loops(), long_switch()]
}

fn straight() -> Workload {
    let mut body: Vec<u8> = [0x01, 0x02, 0xa0, 0x50].repeat(1022);
    body.push(0xe9);
    workload("straight", vec![(body, 0)])
}

/// Forward over one instruction, each join met by two ways.
fn jumps() -> Workload {
    let mut code = Assembler::default();
    for _ in 0..680 {
        let after = code.label();
        code.bytes(&[0x01]);
        code.branch(Branch::JumpC, after, true);
        code.bytes(&[0x9e, 0]);
        code.mark(after);
    }
    code.bytes(&[0xe9]);
    workload("jumps", vec![(assembled(code), 0)])
}

/// Each calls the next.
fn many_procedures() -> Workload {
    let procedures = (1..=255u8).map(|procedure| {
        let callee = procedure % 255 + 1;
        (vec![0xe8, 1, 1, 0x10, 0x11, 0xa0, 0x41, 0x10, 0xe5, callee, 0x11, 0xe9], 1)
    });
    let main = (vec![0x01, 0x71, 0x50, 0xe9], 0);
    let mut procedures: Vec<(Vec<u8>, u8)> = procedures.collect();
    for (body, _) in &mut procedures {
        // The callee's result goes to a local word.
        body.splice(10..11, [0x41, 0x11]);
    }
    procedures.push(main);
    workload("many procedures", procedures)
}

/// Fifty loops inside each other: 250 slots with fifty labels.
fn nested_loops() -> Workload {
    let mut code = Assembler::default();
    let mut exits = Vec::new();
    for _ in 0..50 {
        let exit = code.label();
        code.bytes(&[0x8e, 0, 0x01, 0x02, 0x01]);
        code.branch(Branch::Iter, exit, false);
        exits.push(exit);
    }
    code.bytes(&[0x01, 0x02, 0xa0, 0x50].repeat(800));
    for exit in exits.into_iter().rev() {
        code.bytes(&[0xe1]);
        code.mark(exit);
    }
    code.bytes(&[0xe9]);
    workload("nested loops", vec![(assembled(code), 0)])
}

/// One switch with a branch of its own for each of 1,350 selectors.
fn long_switch() -> Workload {
    let mut code = Assembler::default();
    let (exit, otherwise) = (code.label(), code.label());
    let branches: Vec<_> = (0..1_350).map(|_| code.label()).collect();
    code.bytes(&[0x20]);
    code.switch(exit, otherwise, branches.clone());
    for branch in branches {
        code.mark(branch);
        code.bytes(&[0xe4]);
    }
    code.mark(otherwise);
    code.bytes(&[0xe4]);
    code.mark(exit);
    code.bytes(&[0xe9]);
    workload("long switch", vec![(assembled(code), 0)])
}

#[cfg(test)]
mod tests {
    use super::{for_set_check, for_set_run, Module};
    use crate::check::examine;
    use crate::set::Set;

    #[test]
    fn workloads_over_sets_are_accepted() {
        for workload in for_set_run().into_iter().chain(for_set_check()) {
            let lent: Vec<_> = workload.modules.iter().map(Module::lend).collect();
            let set = Set::read(&lent).unwrap_or_else(|number| panic!("{number}"));
            for own in 0..lent.len() {
                assert!(examine(&set, own).is_ok(), "{} {own}", workload.name);
            }
        }
    }
}
