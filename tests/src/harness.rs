//! What the comparing programs share: arguments, counting of what arose, and the verdict.

use crate::cases::{Answer, Case, Words};
use crate::interface::{Interface, REFERENCE};
use crate::listing::listing;
use crate::random::Random;
use std::collections::BTreeMap;
use std::ops::RangeInclusive;
use std::process::ExitCode;
use std::time::Instant;

/// Longer lists of counts are summed up.
const MOST_PRINTED: usize = 40;

/// Arguments of every comparing program.
struct Arguments {
    seed: u64,
    /// Index of the first case.
    first: u64,
    count: u64,
}

impl Arguments {
    fn read(default_count: u64) -> Result<Arguments, String> {
        let mut arguments = Arguments { seed: 1, first: 0, count: default_count };
        let mut words = std::env::args().skip(1);
        while let Some(name) = words.next() {
            let field = match name.as_str() {
                "--seed" => &mut arguments.seed,
                "--first" => &mut arguments.first,
                "--count" => &mut arguments.count,
                _ => return Err(format!("{name}: not one of --seed, --first, --count")),
            };
            let value = words.next().and_then(|word| word.parse().ok());
            *field = value.ok_or_else(|| format!("{name} takes a number"))?;
        }
        Ok(arguments)
    }
}

/// Numbers of a kind that must each arise at least so often.
pub struct Expected {
    pub kind: &'static str,
    pub numbers: Vec<u32>,
    pub least: u64,
}

impl Expected {
    pub fn new(kind: &'static str, numbers: RangeInclusive<u32>, least: u64) -> Expected {
        Expected { kind, numbers: numbers.collect(), least }
    }
}

/// How often each number of a kind arose.
#[derive(Default)]
pub struct Tally {
    counts: BTreeMap<(&'static str, u32), u64>,
}

impl Tally {
    pub fn note(&mut self, kind: &'static str, number: u32) {
        self.add(kind, number, 1);
    }

    pub fn add(&mut self, kind: &'static str, number: u32, times: u64) {
        *self.counts.entry((kind, number)).or_default() += times;
    }

    fn count(&self, kind: &'static str, number: u32) -> u64 {
        self.counts.get(&(kind, number)).copied().unwrap_or(0)
    }

    fn print(&self) {
        let mut kinds: Vec<&str> = self.counts.keys().map(|&(kind, _)| kind).collect();
        kinds.dedup();
        for kind in kinds {
            let counts = self.counts.iter().filter(|((of, _), _)| *of == kind);
            let text: Vec<String> =
                counts.clone().map(|((_, number), count)| format!("{number}: {count}")).collect();
            if text.len() <= MOST_PRINTED {
                println!("{kind}: {}", text.join(", "));
            } else {
                let least = counts.map(|(_, count)| count).min().unwrap_or(&0);
                println!("{kind}: {} different, each at least {least} times", text.len());
            }
        }
    }
}

/// The program: makes `default_count` cases, or as the arguments say, and compares each.
/// A case answers with an error where the implementations differ.
pub fn main(
    default_count: u64,
    expected: &[Expected],
    mut case: impl FnMut(&mut Random, &mut Tally) -> Result<(), String>,
) -> ExitCode {
    main_by_index(default_count, expected, |_, random, tally| case(random, tally))
}

/// The same for cases that depend on their index, too.
pub fn main_by_index(
    default_count: u64,
    expected: &[Expected],
    mut case: impl FnMut(u64, &mut Random, &mut Tally) -> Result<(), String>,
) -> ExitCode {
    let arguments = match Arguments::read(default_count) {
        Ok(arguments) => arguments,
        Err(error) => {
            eprintln!("{error}");
            return ExitCode::FAILURE;
        }
    };
    let Arguments { seed, first, count } = arguments;
    let start = Instant::now();
    let mut tally = Tally::default();
    for index in first..first + count {
        if let Err(difference) = case(index, &mut Random::of_case(seed, index), &mut tally) {
            println!("different (--seed {seed} --first {index} --count 1):\n{difference}");
            return ExitCode::FAILURE;
        }
    }
    tally.print();
    // A shorter run than the usual one is only for looking at its cases.
    let complete = count >= default_count;
    let rare = if complete { rare(&tally, expected) } else { vec![] };
    for line in &rare {
        println!("{line}");
    }
    let seconds = start.elapsed().as_secs_f64();
    println!("{count} cases, seed {seed}, no difference, {} too rare, {seconds:.1} s", rare.len());
    if rare.is_empty() {
        ExitCode::SUCCESS
    } else {
        ExitCode::FAILURE
    }
}

fn rare(tally: &Tally, expected: &[Expected]) -> Vec<String> {
    let mut lines = Vec::new();
    for Expected { kind, numbers, least } in expected {
        for &number in numbers {
            let count = tally.count(kind, number);
            if count < *least {
                lines.push(format!("too rare: {kind} {number} arose {count} times, not {least}"));
            }
        }
    }
    lines
}

/// Tells whether a step was a NEXT that left its loop by a sum outside the range: five words fewer, and nothing stored (02, K3).
pub fn left_by_its_sum(opcode: Option<u32>, before: &Words, after: &Words) -> bool {
    opcode == Some(0xe1) && before.state[4] == after.state[4] + 5 && before.memory == after.memory
}

/// ADD_U, SUB_U and MUL_U, whose results wrap in records of old issues (02, K11).
pub const WRAPPING: [u32; 3] = [0xa8, 0xa9, 0xaa];

/// Gives the opcode of a completed step whose result left the range, and so was wrapped.
pub fn wrapped(opcode: Option<u32>, before: &Words) -> Option<u32> {
    let [.., x, y] = before.stack[..before.state[4] as usize] else { return None };
    let exact = match opcode? {
        0xa8 => x.checked_add(y),
        0xa9 => x.checked_sub(y),
        0xaa => x.checked_mul(y),
        _ => return None,
    };
    opcode.filter(|_| exact.is_none())
}

/// The answer that a library and the reference agree on, or the case and both answers.
pub fn agree(case: &Case, library: &Interface) -> Result<Answer, String> {
    let found = case.answer(library);
    let expected = case.answer(&REFERENCE);
    if found == expected {
        return Ok(found);
    }
    let code: String = case.records().into_iter().map(listing).collect();
    Err(format!("case      {case}\nproved    {found}\nreference {expected}\n{code}"))
}
