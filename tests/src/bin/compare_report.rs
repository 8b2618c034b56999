//! Compares the report of the proved library with the reference: every byte of the buffer, for
//! buffers that are long enough and too short.

use conformance::case_text::Hex;
use conformance::ffi::PROVED;
use conformance::generate::run_file;
use conformance::harness::{self, Expected, Tally};
use conformance::random::Random;
use conformance::record::Split;
use conformance::report::{self, RunFile};

const CASES: u64 = 100_000;
/// Stands in the buffer before the call.
const FILL: u8 = 0xa5;

fn main() -> std::process::ExitCode {
    let expected = [
        Expected { kind: "check", numbers: (0..=3).chain(5..=18).collect(), least: 100 },
        Expected::new("end", 0..=1, 100),
        Expected::new("end", 30..=38, 20),
        Expected::new("too short", 0..=1, 1_000),
        Expected::new("wrapped", 1..=1, 200),
    ];
    harness::main(CASES, &expected, compare)
}

fn compare(random: &mut Random, tally: &mut Tally) -> Result<(), String> {
    let file = run_file::any(random);
    let text = report::text(&file);
    note(tally, &text);
    tally.note("wrapped", u32::from(wrapped(&file, &text)));
    for length in lengths(random, text.len()) {
        let mut expected = vec![FILL; length];
        let expected_written = report::report(&file, &mut expected);
        tally.note("too short", u32::from(expected_written == 0));
        let mut found = vec![FILL; length];
        let written = (PROVED.report)(&file, &mut found);
        if (written, &found) != (expected_written, &expected) {
            let found = String::from_utf8_lossy(&found);
            return Err(format!(
                "run file  {}\nbuffer of {length} bytes\nproved    {written} {found:?}\n\
                 reference {expected_written} {text:?}",
                Hex(&file)
            ));
        }
    }
    Ok(())
}

/// Buffer lengths: long enough, exact, and too short.
fn lengths(random: &mut Random, needed: usize) -> Vec<usize> {
    let some = match random.below(4) {
        0 => needed - 1,
        1 => random.below(needed),
        2 => needed,
        _ => 0,
    };
    vec![needed + random.below(40), some]
}

/// Counts the number after "check" and the end.
fn note(tally: &mut Tally, text: &str) {
    let mut words = text.split_whitespace();
    let mut number_after = |name: &str| {
        words.find(|word| *word == name)?;
        words.next()?.parse().ok()
    };
    if let Some(number) = number_after("check") {
        tally.note("check", number);
    }
    if let Some(end) = number_after("end") {
        tally.note("end", end);
    }
}

/// Tells whether some unsigned result wrapped: with issue 3/- the page is another one (02, K11).
fn wrapped(file: &[u8], text: &str) -> bool {
    let Some(RunFile { record, .. }) = RunFile::read(file) else { return false };
    let Ok(Split { version, source, .. }) = Split::read(record) else { return false };
    if version.is_empty() || !text.starts_with("check 0\n") {
        return false;
    }
    let at = file.len() - version.len() - source.len();
    let mut other = file.to_vec();
    other[at..at + 4].copy_from_slice(b" 3/-");
    report::text(&other) != text
}
