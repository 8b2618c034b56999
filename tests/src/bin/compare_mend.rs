//! Compares mending of the proved library with the reference: the number, and every byte and word of
//! the three buffers and around them. Besides, holds the library's own answers to what mending is
//! for.

use conformance::bytes::word;
use conformance::cases::Case;
use conformance::ffi::PROVED;
use conformance::generate::record;
use conformance::harness::{self, Expected, Tally};
use conformance::interface::{Interface, MEND_COUNTS, REFERENCE};
use conformance::mend::{mended, Mended};
use conformance::random::Random;
use conformance::record::{number, version_sound, Split};
use std::collections::BTreeSet;

const CASES: u64 = 150_000;
/// Stands in the buffers and around them before the call.
const FILL: u32 = 0xa5a5_a5a5;
const FILL_BYTE: u8 = 0xa5;
const MARGIN: usize = 8;
const MOST_COUNTS: usize = 4;
/// Lent for a record that is refused by 1 to 3, and so needs nothing.
const ANY_PLACES: usize = 4;

/// Which buffers are too short: the sum of 1 for the record's, 2 for the list, 4 for the counts.
const TOO_SHORT: &str = "too short";
/// Counted by the words of the counts.
const MENDED: &str = "mended with counts";
const NO_COUNTS: &str = "8 for the counts alone";
/// Counted by the number.
const NOTHING_LENT: &str = "refused, nothing lent";

/// Kinds of damage. They are counted by the number of the call, 0 or 8.
const ONE_VERSION: &str = "version word alone, malformed";
const MANY_VERSIONS: &str = "version words behind a malformed one";
const ODD: &str = "source table odd";
const BEYOND: &str = "offset beyond the code";
const AT_SIZE: &str = "offset that is the code size";
const EQUAL: &str = "offset equal to the last kept one";
const FALLING: &str = "offset below the last kept one";
const KEPT: &str = "offset above the last kept one, not above a dropped one";
const NOTHING: &str = "nothing to mend";
const DAMAGE: [&str; 9] =
    [ONE_VERSION, MANY_VERSIONS, ODD, BEYOND, AT_SIZE, EQUAL, FALLING, KEPT, NOTHING];

/// Only the longest records reach to this byte. What is beyond it is counted in the same way.
const FAR: usize = 1 << 15;
const DROPPED_FAR: &str = "dropped from byte 32,768 on";
const LEFT_LONG: &str = "new record of over 32,768 bytes";

fn main() -> std::process::ExitCode {
    let mut expected = vec![
        Expected { kind: "number", numbers: vec![0, 1, 2, 3, 8], least: 1_000 },
        Expected::new(NOTHING_LENT, 1..=3, 1_000),
        Expected::new(TOO_SHORT, 0..=7, 1_000),
        Expected::new(NO_COUNTS, 0..=MEND_COUNTS as u32 - 1, 1_000),
        Expected::new(MENDED, MEND_COUNTS as u32..=MOST_COUNTS as u32, 1_000),
        Expected { kind: "record's number", numbers: vec![0, 1, 2, 3, 5, 6, 7], least: 1_000 },
        Expected { kind: "number of the new record", numbers: vec![0, 7], least: 1_000 },
    ];
    expected.extend(DAMAGE.map(|kind| Expected { kind, numbers: vec![0, 8], least: 1_000 }));
    let long = [DROPPED_FAR, LEFT_LONG];
    expected.extend(long.map(|kind| Expected { kind, numbers: vec![0, 8], least: 300 }));
    harness::main(CASES, &expected, compare)
}

fn compare(random: &mut Random, tally: &mut Tally) -> Result<(), String> {
    let record = match random.below(400) {
        0 => record::long_and_worn(random),
        1..=4 => record::with_lines(random),
        5..=239 => record::worn(random),
        _ => record::any(random),
    };
    tally.note("record's number", number(&record));
    let mut kinds = damage(&record);
    let mended = mended(&record);
    if let Ok(mended) = &mended {
        kinds.extend(far(mended));
    }
    let needed = mended.map(|Mended { record, dropped }| (record.len(), dropped.len()));
    let (bytes, words) = needed.unwrap_or((record.len(), ANY_PLACES));
    let mut lent: Vec<_> = (0..=MOST_COUNTS).map(|counts| (bytes, words, counts)).collect();
    lent.push((bytes.saturating_sub(1), words, MEND_COUNTS));
    lent.push((bytes, words.saturating_sub(1), MEND_COUNTS));
    lent.push((0, 0, 0));
    for _ in 0..4 {
        let counts = random.within(0..=MOST_COUNTS);
        lent.push((length(random, bytes), length(random, words), counts));
    }
    for (out, places, counts) in lent {
        let call = Call { record: &record, out, places, counts };
        let number = call.agree()?;
        call.note(tally, number, needed);
        if matches!(number, 0 | 8) {
            kinds.iter().for_each(|kind| tally.note(kind, number));
        }
    }
    hold(&record, tally)
}

/// Just enough, one less, nothing or more.
fn length(random: &mut Random, needed: usize) -> usize {
    match random.below(6) {
        0 => needed.saturating_sub(1),
        1 => 0,
        2 => random.below(needed + 1),
        3 => needed + random.within(1..=40),
        _ => needed,
    }
}

/// One call, with buffers of so many bytes and words.
struct Call<'a> {
    record: &'a [u8],
    out: usize,
    places: usize,
    counts: usize,
}

/// The number, and the buffers with their margins afterwards.
#[derive(Debug, PartialEq, Eq)]
struct Left {
    number: u32,
    out: Vec<u8>,
    places: Vec<u32>,
    counts: Vec<u32>,
}

impl Call<'_> {
    fn answer(&self, library: &Interface) -> Left {
        let words = |length: usize| vec![FILL; MARGIN + length + MARGIN];
        let mut out = vec![FILL_BYTE; MARGIN + self.out + MARGIN];
        let (mut places, mut counts) = (words(self.places), words(self.counts));
        let number = (library.mend)(
            self.record,
            &mut out[MARGIN..MARGIN + self.out],
            &mut places[MARGIN..MARGIN + self.places],
            &mut counts[MARGIN..MARGIN + self.counts],
        );
        Left { number, out, places, counts }
    }

    /// The number that both agree on.
    fn agree(&self) -> Result<u32, String> {
        let found = self.answer(&PROVED);
        let expected = self.answer(&REFERENCE);
        if found == expected {
            return Ok(found.number);
        }
        let (out, places) = (vec![FILL_BYTE; self.out], vec![FILL; self.places]);
        let case = Case::Mend { record: self.record.to_vec(), out, places };
        let counts = self.counts;
        Err(format!(
            "case      {case}\ncounts of {counts} words\nproved    {found:x?}\n\
             reference {expected:x?}"
        ))
    }

    fn note(&self, tally: &mut Tally, number: u32, needed: Result<(usize, usize), u32>) {
        tally.note("number", number);
        let Ok((bytes, words)) = needed else {
            if self.out + self.places + self.counts == 0 {
                tally.note(NOTHING_LENT, number);
            }
            return;
        };
        let short = [self.out < bytes, self.places < words, self.counts < MEND_COUNTS];
        tally.note(TOO_SHORT, short.iter().rev().fold(0, |sum, &short| 2 * sum + u32::from(short)));
        match short {
            [false, false, false] => tally.note(MENDED, self.counts as u32),
            [false, false, true] => tally.note(NO_COUNTS, self.counts as u32),
            _ => {}
        }
    }
}

/// What there is to mend, as 02 names it.
fn damage(bytes: &[u8]) -> BTreeSet<&'static str> {
    let mut kinds = BTreeSet::new();
    let Ok(Split { code, version, source, .. }) = Split::read(bytes) else { return kinds };
    if !version_sound(version) {
        kinds.insert(if version.len() == 4 { ONE_VERSION } else { MANY_VERSIONS });
    }
    if source.len() % 8 != 0 {
        kinds.insert(ODD);
    }
    let (mut last, mut highest) = (None, None);
    for offset in source.chunks_exact(8).map(|pair| word(pair, 0)) {
        match Some(offset) {
            _ if offset as usize == code.len() => kinds.insert(AT_SIZE),
            _ if offset as usize > code.len() => kinds.insert(BEYOND),
            here if here == last => kinds.insert(EQUAL),
            here if here < last => kinds.insert(FALLING),
            here => {
                last = here;
                highest >= here && kinds.insert(KEPT)
            }
        };
        highest = highest.max(Some(offset));
    }
    if kinds.is_empty() {
        kinds.insert(NOTHING);
    }
    kinds
}

/// What is beyond all but the longest records: a dropped word, the end of the new record.
fn far(mended: &Mended) -> impl Iterator<Item = &'static str> {
    let dropped = mended.dropped.last().is_some_and(|&place| place as usize >= FAR);
    let left = mended.record.len() > FAR;
    [dropped.then_some(DROPPED_FAR), left.then_some(LEFT_LONG)].into_iter().flatten()
}

/// Holds the library alone to this: a sound record comes out as it was; the new one is never refused
/// by 5 or 6, and mending it again changes and drops nothing.
fn hold(record: &[u8], tally: &mut Tally) -> Result<(), String> {
    let Some((new, dropped)) = mended_by_library(record) else { return Ok(()) };
    let (before, after) = ((PROVED.number)(record), (PROVED.number)(&new));
    tally.note("number of the new record", after);
    let case = Case::Mend { record: record.to_vec(), out: vec![], places: vec![] };
    let fail = |what: &str| Err(format!("record of {case}\nproved: {what}"));
    // A record that is refused by 7 has passed 5 and 6.
    if matches!(before, 0 | 7) && (new != record || dropped > 0) {
        return fail("a record that has nothing to mend is changed");
    }
    if matches!(after, 5 | 6) {
        return fail(&format!("the new record is refused by {after}"));
    }
    if mended_by_library(&new) != Some((new, 0)) {
        return fail("mending twice changes something more");
    }
    Ok(())
}

/// The library's new record and how many words it dropped; none where it refuses.
fn mended_by_library(record: &[u8]) -> Option<(Vec<u8>, u32)> {
    let (mut out, mut places) = (record.to_vec(), vec![0; record.len() / 4]);
    let mut counts = [0; MEND_COUNTS];
    let number = (PROVED.mend)(record, &mut out, &mut places, &mut counts);
    out.truncate(counts[0] as usize);
    (number == 0).then_some((out, counts[1]))
}
