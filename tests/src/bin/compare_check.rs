//! Compares the check of the proved library with the reference: number and whole workspace.

use conformance::cases::Case;
use conformance::check::STRIDE;
use conformance::ffi::PROVED;
use conformance::generate::damage::{damage, reroute};
use conformance::generate::program::{self, Program};
use conformance::generate::{instructions, record};
use conformance::harness::{self, agree, Expected, Tally};
use conformance::random::Random;

const CASES: u64 = 200_000;

fn main() -> std::process::ExitCode {
    let numbers = (0..=3).chain(5..=15).chain([17, 18]).collect();
    harness::main(CASES, &[Expected { kind: "number", numbers, least: 400 }], compare)
}

fn compare(random: &mut Random, tally: &mut Tally) -> Result<(), String> {
    let (record, results) = case(random);
    let workspace = workspace(random, &record);
    let answer = agree(&Case::Check { record, results, workspace }, &PROVED)?;
    tally.note("number", answer.number());
    Ok(())
}

fn case(random: &mut Random) -> (Vec<u8>, Vec<u8>) {
    let kind = random.below(20);
    let mut program = any_program(random, kind);
    let damages = match kind {
        0..=7 => 0,
        8..=16 => random.pick(&[1, 1, 1, 2, 3]),
        _ => random.below(2),
    };
    if random.percent(25) {
        reroute(random, &mut program);
    }
    for _ in 0..damages {
        damage(random, &mut program);
    }
    if random.percent(6) {
        record::damage_parts(random, &mut program.parts);
    }
    let mut record = program.parts.assemble();
    match random.below(100) {
        0..=3 => record::damage_bytes(random, &mut record),
        4 => record.truncate(random.below(30)),
        _ => {}
    }
    (record, program.results)
}

fn any_program(random: &mut Random, kind: usize) -> Program {
    let code = match kind {
        0 | 1 => return program::flawed(random),
        2..=16 => return program::usual(random),
        17 | 18 => instructions::soup(random),
        _ => instructions::byte_soup(random),
    };
    program::of_code(random, code)
}

/// Workspace with anything in it, mostly long enough.
fn workspace(random: &mut Random, record: &[u8]) -> Vec<u16> {
    let code = conformance::record::Record::read(record).map_or(4, |record| record.code.len());
    let size = STRIDE * code;
    let length = match random.below(40) {
        0 => size - random.within(1..=4).min(size),
        1 => random.below(size + 1),
        2..=15 => size,
        _ => size + random.within(1..=9),
    };
    let fill = random.bits() as u16 | 1;
    let mut workspace = vec![fill; length];
    for _ in 0..8.min(length) {
        let place = random.below(length);
        workspace[place] = random.bits() as u16;
    }
    workspace
}
