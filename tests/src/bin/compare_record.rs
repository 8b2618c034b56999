//! Compares record numbers and line lookups of the proved library with the reference: the line
//! alone, and its span with every word of the buffer and the words around it.

use conformance::cases::{Answer, Case};
use conformance::ffi::PROVED;
use conformance::generate::record;
use conformance::harness::{self, agree, Expected, Tally};
use conformance::interface::{Interface, REFERENCE, SPAN_WORDS};
use conformance::random::Random;
use conformance::record::Record;

const CASES: u64 = 250_000;
/// A table with more pairs is looked up around so many of them, not around each.
const MOST_PAIRS: usize = 32;
/// Stands in the span's buffer and around it before the call.
const FILL: u32 = 0xa5a5_a5a5;
const MARGIN: usize = 4;
const LONGEST_SPAN: usize = SPAN_WORDS + 2;

/// The record's own numbers.
const REFUSALS: [u32; 6] = [1, 2, 3, 5, 6, 7];

/// Ways in which a span is found. They are counted by the words of the buffer.
const NO_PAIRS: &str = "span without pairs";
const BEFORE: &str = "span before the first pair";
const BETWEEN: &str = "span up to the next pair";
const LAST: &str = "span of the last pair";
const OUTSIDE: &str = "span outside";

fn main() -> std::process::ExitCode {
    let found = |kind| Expected::new(kind, SPAN_WORDS as u32..=LONGEST_SPAN as u32, 1_000);
    let expected = [
        Expected { kind: "number", numbers: vec![0, 1, 2, 3, 5, 6, 7], least: 1_000 },
        Expected { kind: "span refused", numbers: REFUSALS.to_vec(), least: 1_000 },
        Expected { kind: "span refused, too short", numbers: REFUSALS.to_vec(), least: 1_000 },
        Expected::new("span too short", 0..=SPAN_WORDS as u32 - 1, 1_000),
        found(NO_PAIRS),
        found(BEFORE),
        found(BETWEEN),
        found(LAST),
        found(OUTSIDE),
    ];
    harness::main(CASES, &expected, compare)
}

fn compare(random: &mut Random, tally: &mut Tally) -> Result<(), String> {
    let record = match random.below(500) {
        0 => record::largest(random),
        1..=49 => record::with_lines(random),
        _ => record::any(random),
    };
    let number = conformance::record::number(&record);
    let found = (PROVED.number)(&record);
    tally.note("number", number);
    if found != number {
        let case = Case::Line { record, offset: 0 };
        return Err(format!("record of {case}\nproved {found}, reference {number}"));
    }
    let offsets = offsets(random, &record);
    compare_lines(&record, &offsets, tally)?;
    for &offset in &offsets {
        let words = random.within(SPAN_WORDS..=LONGEST_SPAN);
        Lookup { record: &record, offset, words }.agree(tally)?;
    }
    for words in 0..SPAN_WORDS {
        Lookup { record: &record, offset: random.pick(&offsets), words }.agree(tally)?;
    }
    Ok(())
}

fn compare_lines(record: &[u8], offsets: &[u32], tally: &mut Tally) -> Result<(), String> {
    let mut case = Case::Line { record: record.to_vec(), offset: 0 };
    for &at in offsets {
        if let Case::Line { offset, .. } = &mut case {
            *offset = at;
        }
        if let Answer::Line(Ok(line)) = agree(&case, &PROVED)? {
            tally.note("line other than 0", u32::from(line != 0));
        }
    }
    Ok(())
}

/// Offsets in and around the code, around the source pairs, and far outside.
fn offsets(random: &mut Random, bytes: &[u8]) -> Vec<u32> {
    let mut offsets = vec![0, u32::MAX, random.word()];
    if let Ok(record) = Record::read(bytes) {
        let size = record.code.len() as u32;
        offsets.extend([size - 1, size, size + 1, random.below(size as usize) as u32]);
        let mut starts: Vec<u32> = record.source_offsets().collect();
        if starts.len() > MOST_PAIRS {
            starts = (0..MOST_PAIRS).map(|_| random.pick(&starts)).collect();
        }
        offsets.extend(starts.iter().flat_map(|&at| [at.wrapping_sub(1), at, at + 1]));
    }
    offsets
}

/// One lookup of a span, in a buffer of so many words.
struct Lookup<'a> {
    record: &'a [u8],
    offset: u32,
    words: usize,
}

impl Lookup<'_> {
    /// The answer, and all words afterwards.
    fn answer(&self, library: &Interface) -> (u32, [u32; MARGIN + LONGEST_SPAN + MARGIN]) {
        let mut words = [FILL; MARGIN + LONGEST_SPAN + MARGIN];
        let span = &mut words[MARGIN..MARGIN + self.words];
        let number = (library.span)(self.record, self.offset, span);
        (number, words)
    }

    fn agree(&self, tally: &mut Tally) -> Result<(), String> {
        let found = self.answer(&PROVED);
        let expected = self.answer(&REFERENCE);
        if found != expected {
            let Lookup { record, offset, words } = *self;
            let case = Case::Span { record: record.to_vec(), offset };
            return Err(format!(
                "case      {case}\nspan of {words} words\nproved    {found:x?}\n\
                 reference {expected:x?}"
            ));
        }
        self.note(tally, found.0);
        Ok(())
    }

    fn note(&self, tally: &mut Tally, number: u32) {
        match (number, self.words) {
            (0, words) => tally.note(self.way(), words as u32),
            (8, words) => tally.note("span too short", words as u32),
            (_, SPAN_WORDS..) => tally.note("span refused", number),
            _ => tally.note("span refused, too short", number),
        }
    }

    /// How the offset lies among the pairs of a sound record.
    fn way(&self) -> &'static str {
        let Ok(record) = Record::read(self.record) else { return "span of no record" };
        let mut starts = record.source_offsets();
        let (first, last) = (starts.clone().next(), starts.next_back());
        match (first, last) {
            _ if self.offset as usize >= record.code.len() => OUTSIDE,
            (Some(first), _) if self.offset < first => BEFORE,
            (_, Some(last)) if self.offset < last => BETWEEN,
            (_, Some(_)) => LAST,
            (_, None) => NO_PAIRS,
        }
    }
}
