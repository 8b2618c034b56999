//! Times run and check of the proved library beside the reference.
//!
//!     bench                                     all workloads, both sides, ns and ratio
//!     bench SIDE WORKLOAD COUNT                 one side and workload, so many steps or checks
//!
//! The second form prints nothing but the count: it is for valgrind --tool=callgrind. SIDE is
//! proved or reference; a workload's name is written with - for its spaces.

use conformance::cases::{Directed, Words};
use conformance::check::STRIDE;
use conformance::ffi::PROVED;
use conformance::interface::{Interface, OUTCOME_WORDS, REFERENCE, STATE_WORDS};
use conformance::interface::{SET_OUTCOME_WORDS, SET_STATE_WORDS};
use conformance::record::Record;
use conformance::workloads::{for_check, for_run, for_set_check, for_set_run, mix};
use conformance::workloads::{Mixed, SetWorkload, Workload};
use std::hint::black_box;
use std::process::ExitCode;
use std::time::Instant;

/// Rounds of each timing; the fastest counts.
const ROUNDS: u32 = 7;
const STEPS: u32 = 3_000_000;
const CHECKS: u32 = 300;
const SET_CHECKS: u32 = 5;
const MIX: &str = "mix";

fn main() -> ExitCode {
    let arguments: Vec<String> = std::env::args().skip(1).collect();
    let arguments: Vec<&str> = arguments.iter().map(String::as_str).collect();
    let result = match arguments[..] {
        [] => all(),
        [side, name, count] => one(side, name, count),
        _ => Err("arguments: none, or SIDE WORKLOAD COUNT".to_string()),
    };
    match result {
        Ok(()) => ExitCode::SUCCESS,
        Err(error) => {
            eprintln!("{error}");
            ExitCode::FAILURE
        }
    }
}

fn all() -> Result<(), String> {
    println!("{:16} {:>12} {:>12} {:>7}", "run, ns a step", "proved", "reference", "ratio");
    for workload in for_run() {
        compare(workload.name, STEPS, |library, steps| run(library, &workload, steps))?;
    }
    for workload in for_set_run() {
        compare(workload.name, STEPS, |library, steps| run_set(library, &workload, steps))?;
    }
    let programs = mix();
    compare(MIX, STEPS, |library, steps| run_mix(library, &programs, steps))?;
    println!("{:16} {:>12} {:>12} {:>7}", "check, ns", "proved", "reference", "ratio");
    for workload in for_check() {
        compare(workload.name, CHECKS, |library, times| check(library, &workload, times))?;
    }
    for workload in for_set_check() {
        compare(workload.name, SET_CHECKS, |library, times| check_set(library, &workload, times))?;
    }
    Ok(())
}

/// Work with an implementation, so many steps or times.
type Work<'a> = &'a dyn Fn(&Interface, u32) -> Result<(), String>;

fn compare(
    name: &str,
    count: u32,
    work: impl Fn(&Interface, u32) -> Result<(), String>,
) -> Result<(), String> {
    let (mut proved, mut reference) = (f64::INFINITY, f64::INFINITY);
    for _ in 0..ROUNDS {
        proved = proved.min(nanoseconds(&PROVED, count, &work)?);
        reference = reference.min(nanoseconds(&REFERENCE, count, &work)?);
    }
    let ratio = proved / reference;
    println!("{name:16} {proved:>12.1} {reference:>12.1} {ratio:>7.2}");
    Ok(())
}

fn nanoseconds(library: &Interface, count: u32, work: Work) -> Result<f64, String> {
    let start = Instant::now();
    work(library, count)?;
    Ok(start.elapsed().as_secs_f64() * 1e9 / f64::from(count))
}

fn one(side: &str, name: &str, count: &str) -> Result<(), String> {
    let library = match side {
        "proved" => PROVED,
        "reference" => REFERENCE,
        _ => return Err(format!("{side}: proved or reference")),
    };
    let count = count.parse().map_err(|_| format!("{count} is no count"))?;
    let named = |workload: &Workload| workload.name.replace(' ', "-") == name;
    let named_set = |workload: &SetWorkload| workload.name.replace(' ', "-") == name;
    if name == MIX {
        run_mix(&library, &mix(), count)?;
    } else if let Some(workload) = for_run().into_iter().find(named) {
        run(&library, &workload, count)?;
    } else if let Some(workload) = for_set_run().into_iter().find(named_set) {
        run_set(&library, &workload, count)?;
    } else if let Some(workload) = for_check().into_iter().find(named) {
        check(&library, &workload, count)?;
    } else if let Some(workload) = for_set_check().into_iter().find(named_set) {
        check_set(&library, &workload, count)?;
    } else {
        return Err(format!("no workload {name}"));
    }
    println!("{count}");
    Ok(())
}

/// Loads the workload and runs it for `steps` steps.
fn run(library: &Interface, workload: &Workload, steps: u32) -> Result<(), String> {
    let (mut memory, mut stack) = ([0; 256], [0; 64]);
    let mut state = [0; STATE_WORDS];
    let mut outcome = [0; OUTCOME_WORDS];
    let record = black_box(&workload.record[..]);
    let loaded = (library.load)(record, &[], &mut memory, &mut stack, &mut state);
    let ran = (library.run)(record, steps, &mut memory, &mut stack, &mut state, &mut outcome);
    match (loaded, ran, outcome) {
        (0, 0, [1, _, done]) if done == steps => Ok(()),
        _ => Err(format!("{}: load {loaded}, run {ran}, outcome {outcome:?}", workload.name)),
    }
}

/// Does the same for a set of modules.
fn run_set(library: &Interface, workload: &SetWorkload, steps: u32) -> Result<(), String> {
    let (mut memory, mut stack, mut copy) = ([0; 256], [0; 64], [0; 256]);
    let mut state = [0; SET_STATE_WORDS];
    let mut outcome = [0; SET_OUTCOME_WORDS];
    let Directed { records, directory, .. } = &Directed::new(black_box(&workload.modules));
    let (memory, stack, copy) = (&mut memory[..], &mut stack[..], &mut copy[..]);
    let loaded = (library.set_load)(records, directory, &[], copy, memory, stack, &mut state);
    let ran =
        (library.set_run)(records, directory, steps, copy, memory, stack, &mut state, &mut outcome);
    match (loaded, ran, outcome) {
        (0, 0, [1, _, done, _]) if done == steps => Ok(()),
        _ => Err(format!("{}: load {loaded}, run {ran}, outcome {outcome:?}", workload.name)),
    }
}

/// Runs the programs of the mix in turn, each from where it was loaded, for `steps` steps in all.
fn run_mix(library: &Interface, programs: &[Mixed], steps: u32) -> Result<(), String> {
    let mut left = steps;
    for Mixed { record, loaded, steps } in programs.iter().cycle() {
        let mut machine = loaded.clone();
        let (budget, mut outcome) = (left.min(*steps), [0; OUTCOME_WORDS]);
        let Words { state, memory, stack } = &mut machine;
        let ran = (library.run)(black_box(record), budget, memory, stack, state, &mut outcome);
        if (ran, outcome[2]) != (0, budget) {
            return Err(format!("{MIX}: run {ran}, outcome {outcome:?}"));
        }
        left -= budget;
        if left == 0 {
            break;
        }
    }
    Ok(())
}

/// Checks the workload `times` times.
fn check(library: &Interface, workload: &Workload, times: u32) -> Result<(), String> {
    let size = Record::read(&workload.record).map_or(0, |record| STRIDE * record.code.len());
    let mut workspace = vec![0; size];
    for _ in 0..times {
        let (record, results) = (black_box(&workload.record), black_box(&workload.results));
        match (library.check)(record, results, &mut workspace) {
            0 => {}
            number => return Err(format!("{}: check {number}", workload.name)),
        }
    }
    black_box(workspace);
    Ok(())
}

/// Checks the main module of a set `times` times.
fn check_set(library: &Interface, workload: &SetWorkload, times: u32) -> Result<(), String> {
    let Directed { records, results, directory } = &Directed::new(&workload.modules);
    let main = Record::read(&workload.modules[0].record);
    let mut workspace = vec![0; main.map_or(0, |record| STRIDE * record.code.len())];
    for _ in 0..times {
        let (records, directory) = (black_box(records), black_box(directory));
        match (library.set_check)(records, results, directory, 0, &mut workspace) {
            0 => {}
            number => return Err(format!("{}: check {number}", workload.name)),
        }
    }
    black_box(workspace);
    Ok(())
}
