//! Compares the fast loop with the general step, both of the proved library: from the same random
//! states of records and of sets of modules, budget by budget, with the fast loop, without it, and
//! with at most three steps at once. Number, end, place, steps, state, and every word of memory and
//! stack are the same.

use conformance::cases::{Answer, Case, Module, SetCall, SetCase, Words};
use conformance::ffi::{GENERAL, MIXED, PROVED};
use conformance::generate::damage::damage;
use conformance::generate::program;
use conformance::generate::{instructions, set, state};
use conformance::harness::{self, wrapped, Expected, Tally, WRAPPING};
use conformance::random::Random;
use conformance::set::{Lent, Set};

const CASES: u64 = 200_000;
/// Each budget up to this one is tried, then a few greater ones.
const BUDGETS: u32 = 12;
const GREATER: [u32; 3] = [40, 200, 3_000];

const EXTERNAL: [u32; 4] = instructions::EXTERNAL;
const EXTERNAL_AND_RTN: [u32; 6] = [0x89, 0x91, 0x98, 0xe6, 0xe6, 0xe9];

fn main() -> std::process::ExitCode {
    let expected = [
        Expected::new("end", 0..=1, 100),
        Expected::new("end", 20..=23, 100),
        Expected::new("end", 30..=38, 20),
        Expected { kind: "opcode done", numbers: instructions::served(), least: 5 },
        Expected { kind: "external opcode done", numbers: EXTERNAL.to_vec(), least: 200 },
        Expected { kind: "wrapped", numbers: WRAPPING.to_vec(), least: 50 },
    ];
    let served = instructions::served();
    harness::main(CASES, &expected, |random, tally| compare(random, tally, &served))
}

fn compare(random: &mut Random, tally: &mut Tally, served: &[u32]) -> Result<(), String> {
    match random.percent(20) {
        true => compare_set(random, tally, served),
        false => compare_record(random, tally, served),
    }
}

fn compare_record(random: &mut Random, tally: &mut Tally, served: &[u32]) -> Result<(), String> {
    let program = match random.below(100) {
        0..=19 => program::usual(random),
        20..=34 => {
            let mut program = program::usual(random);
            damage(random, &mut program);
            program
        }
        35..=84 => {
            let code = instructions::single(random, served);
            program::of_code(random, code)
        }
        _ => {
            let code = instructions::soup(random);
            program::of_code(random, code)
        }
    };
    let record = program.parts.assemble();
    let Ok(set) = Set::read(&[Lent::main(&record, &[])]) else { return Ok(()) };
    let machine = state::begun(random, &set).words;
    let code = set.modules[0].record.code;
    let first = instructions::opcode_at(code, machine.state[0] as usize);
    budgets(tally, first, &machine, |budget| {
        let (record, machine) = (record.clone(), machine.clone());
        Case::Run { record, budget, machine }
    })
}

fn compare_set(random: &mut Random, tally: &mut Tally, served: &[u32]) -> Result<(), String> {
    let programs = match random.below(100) {
        0..=29 => set::usual(random),
        30..=69 => set::single(random, &EXTERNAL_AND_RTN),
        70..=84 => set::single(random, served),
        _ => set::soup(random),
    };
    let modules = programs.modules();
    let lent: Vec<Lent> = modules.iter().map(Module::lend).collect();
    let Ok(set) = Set::read(&lent) else { return Ok(()) };
    let machine = state::begun(random, &set);
    let code = set.modules[machine.module as usize].record.code;
    let first = instructions::opcode_at(code, machine.words.state[0] as usize);
    budgets(tally, first, &machine.words, |budget| {
        let call = SetCall::Run { budget, machine: machine.clone() };
        Case::Set(SetCase { modules: modules.clone(), call })
    })
}

/// Runs budget by budget up to the end of the run.
fn budgets(
    tally: &mut Tally,
    first: Option<u32>,
    machine: &Words,
    case: impl Fn(u32) -> Case,
) -> Result<(), String> {
    for budget in (0..=BUDGETS).chain(GREATER) {
        let Some([end, steps]) = same(&case(budget))? else { return Ok(()) };
        tally.add("steps", 0, u64::from(steps));
        if let (1, 1, Some(opcode)) = (budget, steps, first) {
            let external = EXTERNAL.contains(&opcode);
            tally.note(if external { "external opcode done" } else { "opcode done" }, opcode);
            if let Some(opcode) = wrapped(first, machine) {
                tally.note("wrapped", opcode);
            }
        }
        if end != 1 || budget == GREATER[2] {
            tally.note("end", end);
            break;
        }
    }
    Ok(())
}

/// Runs in the three ways from one state: the end and the steps, or nothing where the run is refused.
fn same(case: &Case) -> Result<Option<[u32; 2]>, String> {
    let fast = case.answer(&PROVED);
    for (name, library) in [("general", GENERAL), ("mixed", MIXED)] {
        let found = case.answer(&library);
        if found != fast {
            return Err(format!("case    {case}\nfast    {fast}\n{name} {found}"));
        }
    }
    match fast {
        Answer::Run { ended: Ok([end, _, steps]), .. } => Ok(Some([end, steps])),
        Answer::SetRun { ended: Ok([end, _, steps, _]), .. } => Ok(Some([end, steps])),
        _ => Ok(None),
    }
}
