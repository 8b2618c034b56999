//! Compares the decoder of the proved library with the reference: the answer, every word of `out`
//! and the words around it.
//!
//! The index of a case is the two bytes that its codes have at the place.

use conformance::case_text::Hex;
use conformance::ffi::PROVED;
use conformance::harness::{self, Expected, Tally};
use conformance::interface::{Interface, REFERENCE};
use conformance::parts::PARTS;
use conformance::random::Random;
use conformance::switch_table::SwitchTable;

/// One for each two bytes.
const CASES: u64 = 1 << 16;
/// The code is cut after 0 to so many bytes of the instruction.
const LONGEST_CUT: usize = 12;
/// Stands in `out` and around it before the call.
const FILL: u32 = 0xa5a5_a5a5;
const MARGIN: usize = 4;
const LONGEST_OUT: usize = 2 * PARTS;

const DOUBLE: u8 = 0xf5;
/// There is no STOR_T.
const NO_MNEMONIC: u32 = 11;
const SWITCH: u32 = 53;
const SWITCH_X: u32 = 54;

fn main() -> std::process::ExitCode {
    let mnemonics = (0..=57).filter(|&number| number != NO_MNEMONIC).collect();
    let expected = [
        Expected { kind: "answer", numbers: vec![0, 8, 10, 11], least: 10_000 },
        Expected { kind: "mnemonic", numbers: mnemonics, least: 1_000 },
        Expected { kind: "after DOUBLE", numbers: vec![1, 2, 3, 4, 9, 10, 12], least: 1_000 },
        Expected::new("bits of n in SWITCH", 0..=16, 100),
        Expected::new("bits of n in SWITCH_X", 0..=16, 100),
    ];
    harness::main_by_index(CASES, &expected, compare)
}

fn compare(index: u64, random: &mut Random, tally: &mut Tally) -> Result<(), String> {
    let start = (index as u16).to_be_bytes();
    let times = if start[0] == DOUBLE { 50 } else { 1 };
    for _ in 0..times {
        compare_start(start, random, tally)?;
    }
    if random.percent(10) {
        compare_table(random, tally)?;
    }
    Ok(())
}

/// One call.
struct Call<'a> {
    code: &'a [u8],
    limit: usize,
    at: usize,
    out_words: usize,
}

impl Call<'_> {
    /// The answer, and all words afterwards.
    fn answer(&self, library: &Interface) -> (u32, [u32; MARGIN + LONGEST_OUT + MARGIN]) {
        let mut words = [FILL; MARGIN + LONGEST_OUT + MARGIN];
        let out = &mut words[MARGIN..MARGIN + self.out_words];
        let number = (library.decode)(self.code, self.limit, self.at, out);
        (number, words)
    }

    fn agree(&self, tally: &mut Tally) -> Result<(), String> {
        let found = self.answer(&PROVED);
        let expected = self.answer(&REFERENCE);
        if found != expected {
            let Call { code, limit, at, out_words } = self;
            let shown = code.get(*at..).unwrap_or(&[]);
            return Err(format!(
                "code of {} bytes, limit {limit}, at {at}, out of {out_words} words\nbytes     {}\n\
                 proved    {found:x?}\nreference {expected:x?}",
                code.len(),
                Hex(&shown[..shown.len().min(LONGEST_CUT)]),
            ));
        }
        note(tally, found.0, &found.1[MARGIN..]);
        Ok(())
    }
}

fn note(tally: &mut Tally, answer: u32, out: &[u32]) {
    tally.note("answer", answer);
    if answer == 0 {
        let (number, operand) = (out[0], out[2]);
        tally.note(if out[1] == 0 { "mnemonic" } else { "after DOUBLE" }, number);
        let bits = u32::BITS - operand.leading_zeros();
        match number {
            SWITCH => tally.note("bits of n in SWITCH", bits),
            SWITCH_X => tally.note("bits of n in SWITCH_X", bits),
            _ => {}
        }
    }
}

/// Codes with these two bytes at the start and further on.
fn compare_start(start: [u8; 2], random: &mut Random, tally: &mut Tally) -> Result<(), String> {
    let far = if random.percent(1) { 70_000 } else { 300 };
    for at in [0, random.within(1..=far)] {
        let mut code = random.bytes(at);
        code.extend(start);
        let tail = random.below(16);
        code.extend(random.bytes(tail));
        let whole = code.len();
        let some_limit = limit(random, whole);
        for limit in (at..=at + LONGEST_CUT).chain([whole, some_limit]) {
            Call { code: &code, limit, at, out_words: PARTS }.agree(tally)?;
        }
        let (limit, near_limit) = near_limit(random, whole);
        Call { code: &code, limit, at: near_limit, out_words: PARTS }.agree(tally)?;
        let out_words = wrong_length(random);
        let at = random.pick(&[at, near_limit]);
        Call { code: &code, limit, at, out_words }.agree(tally)?;
    }
    Ok(())
}

/// A switch whose table ends near the limit, wholly in the code or cut off by its end.
fn compare_table(random: &mut Random, tally: &mut Tally) -> Result<(), String> {
    let bits = random.within(0..=16);
    let entries = if random.percent(5) { 0xffff } else { random.below(1 << bits) as u16 };
    let ranges = random.percent(50);
    let at = random.below(300);
    let end = at + SwitchTable { place: at, entries: entries.into(), ranges }.length();
    let size = if random.percent(75) { end + random.below(9) } else { random.within(at + 3..=end) };
    let mut code = vec![random.byte(); size];
    code[at] = if ranges { 0xe3 } else { 0xe2 };
    code[at + 1..at + 3].copy_from_slice(&entries.to_be_bytes());
    let early = random.within(at..=end);
    for limit in [end - 1, end, end + 1, end + random.below(20), size, early, usize::MAX] {
        Call { code: &code, limit, at, out_words: PARTS }.agree(tally)?;
    }
    Call { code: &code, limit: end, at, out_words: wrong_length(random) }.agree(tally)
}

/// A limit within the code, near its end or far away.
fn limit(random: &mut Random, size: usize) -> usize {
    match random.below(6) {
        0 => random.below(size + 1),
        1 | 2 => size + random.below(20),
        3 => random.bits() as usize,
        4 => u32::MAX as usize + random.below(4),
        _ => usize::MAX - random.below(4),
    }
}

/// A limit, and a place at it, past it or closely before it.
fn near_limit(random: &mut Random, size: usize) -> (usize, usize) {
    let limit = if random.percent(50) { size } else { limit(random, size) };
    let at = match random.below(4) {
        0 => limit,
        1 => limit.saturating_add(random.below(20)),
        2 => limit.saturating_add(random.bits() as usize),
        _ => limit.saturating_sub(random.below(4)),
    };
    (limit, at)
}

/// A length that `out` should not have.
fn wrong_length(random: &mut Random) -> usize {
    match random.below(LONGEST_OUT) {
        PARTS => LONGEST_OUT,
        length => length,
    }
}
