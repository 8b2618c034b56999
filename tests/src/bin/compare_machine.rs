//! Compares load and run of the proved library with the reference: number, end, place, steps,
//! state, and every word of memory and stack. The code need not be accepted.

use conformance::cases::{Answer, Case, Words};
use conformance::ffi::PROVED;
use conformance::generate::damage::damage;
use conformance::generate::program::{self, Program};
use conformance::generate::record::Parts;
use conformance::generate::{instructions, record, state};
use conformance::harness::{self, agree, left_by_its_sum, wrapped, Expected, Tally, WRAPPING};
use conformance::instruction::{decode, Instruction};
use conformance::interface::{Interface, REFERENCE};
use conformance::random::{Random, EDGES};
use conformance::record::Record;
use conformance::set::{Lent, Set};

const CASES: u64 = 300_000;

fn main() -> std::process::ExitCode {
    let expected = [
        Expected::new("end", 0..=1, 100),
        Expected::new("end", 20..=23, 100),
        Expected::new("end", 30..=38, 100),
        Expected { kind: "load refused", numbers: vec![1, 2, 3, 5, 6, 7, 8, 17, 18], least: 100 },
        Expected { kind: "run refused", numbers: vec![1, 2, 3, 5, 6, 7, 17, 18, 24], least: 100 },
        Expected { kind: "opcode done", numbers: instructions::served(), least: 5 },
        Expected { kind: "external opcode", numbers: instructions::EXTERNAL.to_vec(), least: 50 },
        Expected::new("left by its sum", 0..=0, 50),
        Expected { kind: "wrapped", numbers: WRAPPING.to_vec(), least: 50 },
    ];
    if let Err(difference) = arithmetic_edges().and_then(|()| every_issue()) {
        println!("different:\n{difference}");
        return std::process::ExitCode::FAILURE;
    }
    let served = instructions::served();
    harness::main(CASES, &expected, |random, tally| compare(random, tally, &served))
}

fn compare(random: &mut Random, tally: &mut Tally, served: &[u32]) -> Result<(), String> {
    match random.below(100) {
        0..=24 => {
            let program = program::usual(random);
            load_and_run(random, tally, &program)
        }
        25..=39 => {
            let mut program = program::usual(random);
            for _ in 0..random.within(1..=3) {
                damage(random, &mut program);
            }
            load_and_run(random, tally, &program)
        }
        40..=43 => {
            let code = instructions::byte_soup(random);
            let program = program::of_code(random, code);
            load_and_run(random, tally, &program)
        }
        44..=77 => {
            let code = instructions::single(random, served);
            run_from_fitting(random, tally, code, false)
        }
        78 | 79 => {
            let code = instructions::hidden(random);
            run_from_fitting(random, tally, code, false)
        }
        80..=84 => {
            let code = instructions::soup(random);
            run_from_fitting(random, tally, code, false)
        }
        85..=89 => {
            let code = instructions::soup(random);
            run_from_fitting(random, tally, code, true)
        }
        90..=98 => refused_records(random, tally),
        _ => other_lengths(random),
    }
}

/// Every arithmetic, order and set instruction on every pair of edge words, by either rule of K11.
fn arithmetic_edges() -> Result<(), String> {
    let arithmetic = |code: &u8| {
        let decoded = decode(&[*code], 1, 0);
        matches!(decoded, Ok((Instruction::Binary(_) | Instruction::NegI | Instruction::Neg, _)))
    };
    for opcode in (0..=255).filter(arithmetic) {
        for x in EDGES {
            for y in EDGES {
                agree_on_two(opcode, [x, y], vec![])?;
                agree_on_two(opcode, [x, y], vec![*b" 2/Z"])?;
            }
        }
    }
    Ok(())
}

/// Compares one step on two words, in a record with this version table.
fn agree_on_two(opcode: u8, words: [u32; 2], version: Vec<[u8; 4]>) -> Result<(), String> {
    let code = vec![0, 2, opcode, 0xff];
    let record = Parts { code, version, ..Parts::default() }.assemble();
    let (memory, stack) = (vec![0, 0, 3], words.to_vec());
    let machine = Words { state: [2, 3, 3, 3, 2, 0], memory, stack };
    agree(&Case::Run { record, budget: 1, machine }, &PROVED).map(drop)
}

/// Compares results outside the range under every issue, and with some malformed version words.
fn every_issue() -> Result<(), String> {
    for tens in *b" 0123456789-" {
        for units in *b"0123456789 " {
            for revision in *b"-ABCDEFGHIJKLMNOPQRSTUVWXYZ@" {
                let version = vec![[tens, units, b'/', revision], *b" 2/Z", *b" 3/-"];
                agree_on_two(0xa8, [u32::MAX, 2], version.clone())?;
                agree_on_two(0xa9, [2, 3], version.clone())?;
                agree_on_two(0xaa, [0x1_0001, 0x1_0001], version)?;
            }
        }
    }
    Ok(())
}

/// Loads and, if that was taken, runs in several pieces.
fn load_and_run(random: &mut Random, tally: &mut Tally, program: &Program) -> Result<(), String> {
    let record = program.parts.assemble();
    let most = program.parts.globals as usize + usize::from(random.percent(3));
    let count = if random.percent(5) { most } else { random.below(most.min(30) + 1) };
    let parameters = random.words(count);
    let (memory, stack) = fresh(random, &record);
    let case = Case::Load { record: record.clone(), parameters, memory, stack };
    let Answer::Load { number, machine } = agree(&case, &PROVED)? else { return Ok(()) };
    tally.note("load refused", number);
    if number > 0 {
        return Ok(());
    }
    run_on(random, tally, record, machine, 4)
}

/// Runs from a random state that fits, or nearly.
fn run_from_fitting(
    random: &mut Random,
    tally: &mut Tally,
    code: Vec<u8>,
    unfit: bool,
) -> Result<(), String> {
    let record = program::of_code(random, code).parts.assemble();
    let Ok(set) = Set::read(&[Lent::main(&record, &[])]) else { return Ok(()) };
    let mut machine = state::begun(random, &set).words;
    if unfit {
        state::unfit(random, &mut machine);
    }
    run_on(random, tally, record, machine, 2)
}

/// Runs, and goes on from where the last run ended, whatever its end: 1 to `most` times.
fn run_on(
    random: &mut Random,
    tally: &mut Tally,
    record: Vec<u8>,
    mut machine: Words,
    most: usize,
) -> Result<(), String> {
    for _ in 0..random.within(1..=most) {
        let budget = random.pick(&[0, 1, 1, 2, 3, 10, 60, 300]);
        let first = opcode_at(&record, machine.state[0]);
        let before = machine.clone();
        let case = Case::Run { record: record.clone(), budget, machine };
        let Answer::Run { ended, machine: after } = agree(&case, &PROVED)? else { return Ok(()) };
        match ended {
            Ok([end, _, steps]) => {
                tally.note("end", end);
                tally.add("steps", 0, u64::from(steps));
                if let (Some(opcode), 1..) = (first, steps) {
                    tally.note("opcode done", opcode);
                }
                let external = first.filter(|opcode| instructions::EXTERNAL.contains(opcode));
                if let (Some(opcode), 22 | 23, 0) = (external, end, steps) {
                    tally.note("external opcode", opcode);
                }
                if steps == 1 && left_by_its_sum(first, &before, &after) {
                    tally.note("left by its sum", 0);
                }
                if let (Some(opcode), 1..) = (wrapped(first, &before), steps) {
                    tally.note("wrapped", opcode);
                }
            }
            Err(number) => {
                tally.note("run refused", number);
                return Ok(());
            }
        }
        machine = after;
    }
    Ok(())
}

/// Makes memory and stack for a load.
fn fresh(random: &mut Random, record: &[u8]) -> (Vec<u32>, Vec<u32>) {
    let least = Record::read(record).map_or(3, |record| record.frame_words());
    state::fresh(random, least as usize)
}

/// The opcode that a run begins with.
fn opcode_at(record: &[u8], place: u32) -> Option<u32> {
    let record = Record::read(record).ok()?;
    instructions::opcode_at(record.code, place as usize)
}

/// Damaged records: load and run both answer with the record's number.
fn refused_records(random: &mut Random, tally: &mut Tally) -> Result<(), String> {
    let record = record::any(random);
    let parameters = random.below(4);
    let parameters = random.words(parameters);
    let (memory, stack) = fresh(random, &record);
    let state = [2, 3, 3, 3, 0, 0];
    let machine = Words { state, memory: memory.clone(), stack: stack.clone() };
    let case = Case::Load { record: record.clone(), parameters, memory, stack };
    let answer = agree(&case, &PROVED)?;
    tally.note("load refused", answer.number());
    run_on(random, tally, record, machine, 1)
}

/// A state of other than 6 words or an outcome of other than 3: 8 and 24, nothing changed.
fn other_lengths(random: &mut Random) -> Result<(), String> {
    let program = program::usual(random);
    let mut record = program.parts.assemble();
    if random.percent(50) {
        record::damage_bytes(random, &mut record);
    }
    let (memory, stack) = fresh(random, &record);
    let state_words = random.pick(&[0, 1, 5, 6, 7, 12]);
    let outcome_words = if state_words == 6 { random.pick(&[0, 2, 4, 6]) } else { 3 };
    let try_both = |library: &Interface| {
        let (mut memory, mut stack) = (memory.clone(), stack.clone());
        let mut state = vec![9; state_words];
        let mut outcome = vec![9; outcome_words];
        let (memory, stack) = (&mut memory[..], &mut stack[..]);
        let ran = (library.run)(&record, 5, memory, stack, &mut state, &mut outcome);
        let loaded = (library.load)(&record, &[], memory, stack, &mut state);
        (loaded, ran, memory.to_vec(), stack.to_vec(), state, outcome)
    };
    if try_both(&PROVED) != try_both(&REFERENCE) {
        return Err(format!("state of {state_words} words, outcome of {outcome_words} words"));
    }
    Ok(())
}
