//! Random programs of several procedures, nearly all of which the check accepts.

use super::assembler::Assembler;
use super::body::{Body, Scope, Signature};
use super::record::{around, set_entry, version_table, Parts};
use crate::issue::wraps;
use crate::random::Random;
use crate::record::{Record, LARGEST};

/// A record's parts with the results list of its procedures.
#[derive(Clone, Debug)]
pub struct Program {
    pub parts: Parts,
    pub results: Vec<u8>,
}

/// How likely operands are that trap, in percent.
const TAME: usize = 1;
const WILD: usize = 12;
/// How likely statements are that misuse a label, in percent.
pub const FLAWED: usize = 12;

/// A structured program of about `fuel` statements, with `nest` loops inside each other.
fn structured(random: &mut Random, fuel: usize, nest: usize, flaw: usize) -> Program {
    let version = version_table(random);
    let scope = scope(random, flaw, wraps(version.as_flattened()));
    of_scope(random, &scope, version, fuel, nest)
}

/// Makes the program of a scope. Its imports and relocation are for the set that it is part of.
pub fn of_scope(
    random: &mut Random,
    scope: &Scope,
    version: Vec<[u8; 4]>,
    fuel: usize,
    nest: usize,
) -> Program {
    // What is too long is tried again with less.
    let code = (1..)
        .find_map(|attempt| code(random, scope, fuel / attempt, nest / attempt))
        .expect("a program without statements fits");
    let results = scope.signatures.iter().map(|signature| signature.results as u8).collect();
    let constants = random.words(scope.constants);
    let parts = Parts { version, ..around(random, code, scope.globals as u32, constants) };
    Program { parts, results }
}

/// A program of usual size; at times a larger one.
pub fn usual(random: &mut Random) -> Program {
    let (fuel, nest) = size(random);
    structured(random, fuel, nest, 0)
}

/// Picks how many statements, and loops inside each other.
pub fn size(random: &mut Random) -> (usize, usize) {
    match random.below(1000) {
        0..=2 => (400, 0),
        3..=20 => (120, 0),
        21..=30 => (10, random.within(20..=70)),
        31..=80 => (10, random.within(3..=12)),
        _ => (random.pick(&[2, 6, 6, 12, 12, 25]), 0),
    }
}

/// A program that would be accepted if labels were words like any other.
pub fn flawed(random: &mut Random) -> Program {
    let (fuel, nest) = random.pick(&[(6, 0), (12, 1), (12, 3)]);
    structured(random, fuel, nest, FLAWED)
}

/// A program of given code, with results that are sound for it.
pub fn of_code(random: &mut Random, code: Vec<u8>) -> Program {
    let globals = random.pick(&[0, 1, 3, 6]);
    let constants = random.pick(&[0, 1, 2, 4]);
    let constants = random.words(constants);
    let parts = around(random, code, globals, constants);
    let procedures = Record::read(&parts.assemble()).map_or(1, |record| record.procedures);
    let results = (0..procedures).map(|n| if n == 0 { 0 } else { random.below(3) as u8 }).collect();
    Program { parts, results }
}

pub fn scope(random: &mut Random, flaw: usize, wraps: bool) -> Scope {
    let procedures = match random.below(40) {
        0..=14 => 1,
        15..=37 => random.within(2..=5),
        38 => random.within(6..=30),
        _ => random.pick(&[60, 256]),
    };
    let globals = random.pick(&[0, 1, 3, 6, 6, 12, 20]);
    let constants = random.pick(&[0, 1, 2, 4]);
    let signatures =
        (0..procedures).map(|procedure| signature(random, procedure, procedures)).collect();
    let wild = random.pick(&[TAME, TAME, WILD]);
    Scope { signatures, globals, constants, libraries: vec![], wild, flaw, wraps }
}

fn signature(random: &mut Random, procedure: usize, procedures: usize) -> Signature {
    let locals = random.pick(&[0, 0, 1, 2, 5]);
    if procedure == 0 {
        return Signature { parameters: 0, locals, results: 0 };
    }
    let large = procedures < 10 && random.percent(1);
    Signature {
        parameters: if large { random.within(200..=255) } else { random.pick(&[0, 1, 1, 2, 3]) },
        locals: if large { 255 } else { locals },
        results: random.below(3),
    }
}

/// The entry table and all bodies, or none where they do not fit.
fn code(random: &mut Random, scope: &Scope, fuel: usize, nest: usize) -> Option<Vec<u8>> {
    let procedures = scope.signatures.len();
    let nest = if procedures > 10 { 0 } else { nest };
    let fuel = match procedures {
        0..=10 => 1 + fuel / procedures,
        11..=100 => 1,
        _ => 0,
    };
    let mut code = vec![0; 2 * procedures];
    for procedure in (1..procedures).chain([0]) {
        let entry = code.len();
        set_entry(&mut code, procedure, entry);
        let fuel = random.within(fuel / 2..=fuel);
        let (code_of_body, held) = (Assembler::default(), Vec::new());
        let body = Body { random, scope, procedure, code: code_of_body, held, fuel, nest };
        code.extend(body.write()?);
    }
    (code.len() <= LARGEST[1] as usize).then_some(code)
}
