//! Compares the calls over sets of modules of the proved library with the reference: number, end,
//! place, steps, state, every halfword of the workspace, every byte of the copy and every word of
//! memory and stack, with guard words around each. The code need not be accepted.

use conformance::cases::{Answer, Case, Directed, Module, SetCall, SetCase, SetWords, Words};
use conformance::check::STRIDE;
use conformance::ffi::PROVED;
use conformance::generate::set::{self, Programs};
use conformance::generate::{instructions, record, state};
use conformance::guarded::Guarded;
use conformance::harness::{self, agree, wrapped, Expected, Tally, WRAPPING};
use conformance::interface::{
    Interface, REFERENCE, ROW, SET_OUTCOME_WORDS, SET_STATE_WORDS, STATE_WORDS,
};
use conformance::random::Random;
use conformance::record::Record;
use conformance::set::{Lent, Set};

const CASES: u64 = 200_000;

/// Bytes that only the copies of stretched sets have.
const LONG_COPY: usize = 16_384;

const EXTERNAL: [u32; 4] = instructions::EXTERNAL;
const EXTERNAL_AND_RTN: [u32; 6] = [0x89, 0x91, 0x98, 0xe6, 0xe6, 0xe9];

/// Numbers before 8, of every call.
const REFUSALS: [u32; 8] = [1, 2, 3, 5, 6, 7, 17, 18];

fn main() -> std::process::ExitCode {
    let with = |more: &[u32]| REFUSALS.iter().chain(more).copied().collect();
    let check = with(&[0, 8, 9, 10, 11, 12, 13, 14, 15]);
    let mut opcodes = instructions::served();
    opcodes.extend(instructions::EXTERNAL);
    let expected = [
        Expected { kind: "check", numbers: check, least: 100 },
        Expected { kind: "load", numbers: with(&[0, 8]), least: 50 },
        Expected { kind: "load with a long copy", numbers: vec![0, 8], least: 20 },
        Expected { kind: "run refused", numbers: with(&[24]), least: 50 },
        Expected::new("end", 0..=1, 100),
        Expected::new("end", 20..=23, 50),
        Expected::new("end", 30..=38, 50),
        Expected { kind: "opcode done", numbers: opcodes.clone(), least: 1 },
        Expected { kind: "external opcode done", numbers: EXTERNAL.to_vec(), least: 200 },
        Expected::new("trapped external opcode", 22..=23, 20),
        Expected::new("trapped external opcode", 32..=33, 20),
        Expected::new("trapped external opcode", 35..=37, 20),
        Expected::new("external return", 0..=3, 20),
        Expected::new("modules", 1..=18, 20),
        Expected { kind: "wrapped", numbers: WRAPPING.to_vec(), least: 50 },
    ];
    harness::main(CASES, &expected, |random, tally| compare(random, tally, &opcodes))
}

fn compare(random: &mut Random, tally: &mut Tally, opcodes: &[u32]) -> Result<(), String> {
    match random.below(100) {
        0..=29 => check(random, tally),
        30..=49 => load_and_run(random, tally),
        50..=81 => {
            let opcodes = if random.percent(30) { &EXTERNAL_AND_RTN } else { opcodes };
            let set = set::single(random, opcodes);
            run_from_fitting(random, tally, &set, false)
        }
        82..=84 => {
            let set = set::soup(random);
            run_from_fitting(random, tally, &set, false)
        }
        85..=92 => {
            let set = if random.percent(50) { set::soup(random) } else { set::usual(random) };
            run_from_fitting(random, tally, &set, true)
        }
        93..=96 => directories(random),
        _ => other_lengths(random),
    }
}

/// Makes a set, mostly a sound one; a damaged one may still be.
fn any_set(random: &mut Random) -> Programs {
    let mut set = match random.below(20) {
        0..=2 => set::soup(random),
        3 => set::flawed(random),
        _ => set::usual(random),
    };
    if random.percent(10) {
        set::reroute(random, &mut set);
    }
    for _ in 0..random.pick(&[0, 0, 0, 1, 1, 2]) {
        set::damage(random, &mut set);
    }
    set
}

/// Makes the modules of a set, now and then of the greatest size, or with bytes of one record lost
/// or changed.
fn modules(random: &mut Random) -> Vec<Module> {
    if random.below(200) == 0 {
        let mut set = set::usual(random);
        set::stretch(random, &mut set);
        return set.modules();
    }
    let mut modules = any_set(random).modules();
    if random.percent(12) {
        let number = random.below(modules.len());
        record::damage_bytes(random, &mut modules[number].record);
    }
    modules
}

fn check(random: &mut Random, tally: &mut Tally) -> Result<(), String> {
    let modules = modules(random);
    tally.note("modules", modules.len() as u32);
    let own = random.below(modules.len());
    let code = Record::read(&modules[own].record).map_or(4, |record| record.code.len());
    let size = STRIDE * code;
    let length = match random.below(40) {
        0 | 1 => size - random.within(1..=4).min(size),
        2 => random.below(size + 1),
        3..=15 => size,
        _ => size + random.within(1..=9),
    };
    let workspace = vec![random.bits() as u16 | 1; length];
    let call = SetCall::Check { own: own as u32, workspace };
    let answer = agree(&Case::Set(SetCase { modules, call }), &PROVED)?;
    tally.note("check", answer.number());
    Ok(())
}

/// Loads and, if that was taken, runs in several pieces.
fn load_and_run(random: &mut Random, tally: &mut Tally) -> Result<(), String> {
    let modules = modules(random);
    let call = load(random, &modules);
    let case = Case::Set(SetCase { modules: modules.clone(), call });
    let Answer::SetLoad { number, machine } = agree(&case, &PROVED)? else { return Ok(()) };
    tally.note("load", number);
    if machine.copy.len() > LONG_COPY {
        tally.note("load with a long copy", number);
    }
    match number {
        0 => run_on(random, tally, modules, machine, 4),
        _ => {
            // Other refusals are those of a run, too; for 8 the state does not fit.
            let words = Words { state: [2, 3, 3, 3, 0, 0], ..machine.words };
            run_on(random, tally, modules, SetWords { words, ..machine }, 1)
        }
    }
}

/// Makes buffers for a load, now and then of a size that it refuses.
fn load(random: &mut Random, modules: &[Module]) -> SetCall {
    let lent: Vec<Lent> = modules.iter().map(Module::lend).collect();
    let set = Set::read(&lent).ok();
    let (least, copy, globals) = set.map_or((3, 40, 0), |set| {
        (set.frames_at() as usize, set.copy_size(), set.modules[0].record.globals as usize)
    });
    let count = match random.below(30) {
        0 => globals + 1,
        1 => globals,
        _ => random.below(globals.min(12) + 1),
    };
    let (memory, stack) = state::fresh(random, least);
    let copy = match random.below(30) {
        0 => copy.saturating_sub(random.within(1..=3)),
        1 => 0,
        2..=9 => copy + random.within(1..=20),
        _ => copy,
    };
    SetCall::Load { parameters: random.words(count), copy: random.bytes(copy), memory, stack }
}

/// Runs from a random state that fits, or nearly.
fn run_from_fitting(
    random: &mut Random,
    tally: &mut Tally,
    programs: &Programs,
    spoiled: bool,
) -> Result<(), String> {
    let modules = programs.modules();
    let lent: Vec<Lent> = modules.iter().map(Module::lend).collect();
    let Ok(set) = Set::read(&lent) else { return Ok(()) };
    let mut machine = state::begun(random, &set);
    if spoiled {
        state::unfit_set(random, &mut machine, &set);
    }
    run_on(random, tally, modules, machine, 2)
}

/// Runs, and goes on from where the last run ended, whatever its end: 1 to `most` times.
fn run_on(
    random: &mut Random,
    tally: &mut Tally,
    modules: Vec<Module>,
    mut machine: SetWords,
    most: usize,
) -> Result<(), String> {
    for _ in 0..random.within(1..=most) {
        let budget = random.pick(&[0, 1, 1, 2, 3, 10, 60, 300]);
        let call = SetCall::Run { budget, machine: machine.clone() };
        let case = Case::Set(SetCase { modules: modules.clone(), call });
        let Answer::SetRun { ended, machine: after } = agree(&case, &PROVED)? else {
            return Ok(());
        };
        match ended {
            Ok([end, _, steps, _]) => {
                tally.note("end", end);
                tally.add("steps", 0, u64::from(steps));
                note_first(tally, &modules, &machine, end, steps);
            }
            Err(number) => {
                tally.note("run refused", number);
                return Ok(());
            }
        }
        machine = after;
    }
    Ok(())
}

/// Counts what the first instruction of a run did.
fn note_first(tally: &mut Tally, modules: &[Module], before: &SetWords, end: u32, steps: u32) {
    let Ok(record) = Record::read(&modules[before.module as usize].record) else { return };
    let [place, fp, _, _, _, calls] = before.words.state;
    let Some(opcode) = instructions::opcode_at(record.code, place as usize) else { return };
    let external = EXTERNAL.contains(&opcode);
    if steps == 0 && external && end > 1 {
        return tally.note("trapped external opcode", end);
    }
    if steps == 0 {
        return;
    }
    tally.note("opcode done", opcode);
    if external {
        tally.note("external opcode done", opcode);
    }
    let returns = opcode == 0xe9 && calls > 0;
    if returns && before.words.memory[fp as usize - 1] as i32 <= 0 {
        tally.note("external return", before.module);
    }
    if let Some(opcode) = wrapped(Some(opcode), &before.words) {
        tally.note("wrapped", opcode);
    }
}

/// Lends directories whose rows do not stand for what the slices hold: shares that are cut off,
/// words past the last row, none at all.
fn directories(random: &mut Random) -> Result<(), String> {
    let modules = any_set(random).modules();
    let mut directed = Directed::new(&modules);
    for _ in 0..random.within(1..=2) {
        damage_directory(random, &mut directed);
    }
    let rows = directed.directory.len() / ROW;
    let own = random.below(rows.max(1)) as u32;
    let workspace = vec![0x5a5a; random.pick(&[0, 200, 16_384])];
    let shares = directed.modules();
    let calls = [SetCall::Check { own, workspace }, load(random, &shares)];
    for call in calls {
        let found = call.answer(&directed, &PROVED);
        let expected = call.answer(&directed, &REFERENCE);
        if found != expected {
            let case = Case::Set(SetCase { modules: shares, call });
            let Directed { records, results, directory } = directed;
            return Err(format!(
                "records of {} bytes, results of {}, directory {directory:?}\n\
                 case      {case}\nproved    {found}\nreference {expected}",
                records.len(),
                results.len(),
            ));
        }
    }
    Ok(())
}

fn damage_directory(random: &mut Random, directed: &mut Directed) {
    let Directed { records, results, directory } = directed;
    match random.below(8) {
        0 => directory.truncate(random.below(directory.len() + 1)),
        1 => {
            let more = random.within(1..=5);
            directory.extend(random.words(more));
        }
        2 => records.truncate(random.below(records.len() + 1)),
        3 => records.extend(random.bytes(9)),
        4 => results.truncate(random.below(results.len() + 1)),
        5 => results.extend(random.bytes(3)),
        _ if !directory.is_empty() => {
            let at = random.below(directory.len());
            directory[at] = match random.below(3) {
                0 => random.word(),
                1 => directory[at].wrapping_add(1),
                _ => u32::MAX,
            };
        }
        _ => directory.clear(),
    }
}

/// Lends a state of other than 7 words or an outcome under 4: 8 and 24, nothing changed. An
/// outcome may be longer.
fn other_lengths(random: &mut Random) -> Result<(), String> {
    let mut modules = set::usual(random).modules();
    if random.percent(30) {
        record::damage_bytes(random, &mut modules[0].record);
    }
    let directed = Directed::new(&modules);
    let SetCall::Load { parameters, copy, memory, stack } = load(random, &modules) else {
        return Ok(());
    };
    let machine = Lengths {
        state: random.pick(&[0, 1, STATE_WORDS, SET_STATE_WORDS, SET_STATE_WORDS + 1, 12]),
        outcome: random.pick(&[0, 3, SET_OUTCOME_WORDS, SET_OUTCOME_WORDS + 1, 6]),
        parameters,
        copy,
        memory,
        stack,
    };
    if machine.answer(&directed, &PROVED) != machine.answer(&directed, &REFERENCE) {
        let Lengths { state, outcome, .. } = machine;
        return Err(format!("state of {state} words, outcome of {outcome} words"));
    }
    Ok(())
}

/// A load and then a run, with a state and an outcome of any length.
struct Lengths {
    state: usize,
    outcome: usize,
    parameters: Vec<u32>,
    copy: Vec<u8>,
    memory: Vec<u32>,
    stack: Vec<u32>,
}

impl Lengths {
    /// Gives both numbers, and state, outcome, memory, stack and copy afterwards.
    fn answer(&self, set: &Directed, library: &Interface) -> ([u32; 2], [Vec<u32>; 4], Vec<u8>) {
        let Directed { records, directory, .. } = set;
        let guarded = |words: &[u32]| Guarded::new(words, 0xa5a5_a5a5);
        let (mut memory, mut stack) = (guarded(&self.memory), guarded(&self.stack));
        let mut state = guarded(&vec![9; self.state]);
        let mut outcome = guarded(&vec![9; self.outcome]);
        let mut copy = Guarded::new(&self.copy, 0xa5);
        let loaded = (library.set_load)(
            records,
            directory,
            &self.parameters,
            copy.lent(),
            memory.lent(),
            stack.lent(),
            state.lent(),
        );
        let ran = (library.set_run)(
            records,
            directory,
            5,
            copy.lent(),
            memory.lent(),
            stack.lent(),
            state.lent(),
            outcome.lent(),
        );
        let words = [state, outcome, memory, stack].map(Guarded::left);
        ([loaded, ran], words, copy.left())
    }
}
