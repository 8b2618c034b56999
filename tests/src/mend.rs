//! Mending what the tape lost (02, K12).

use crate::bytes::word;
use crate::record::{version_sound, Split};

/// Places of two sizes in the header.
const VERSION_SIZE_AT: usize = 20;
const SOURCE_SIZE_AT: usize = 24;

/// The new record, and the byte places of the dropped words in the old one, rising.
#[derive(Debug, PartialEq, Eq)]
pub struct Mended {
    pub record: Vec<u8>,
    pub dropped: Vec<u32>,
}

/// The mended record, or the lowest number of 1 to 3 that applies. "Every other part is byte for
/// byte the same"; version and source table are the last two.
pub fn mended(bytes: &[u8]) -> Result<Mended, u32> {
    let Split { code, version, source, .. } = Split::read(bytes)?;
    let tables_at = bytes.len() - version.len() - source.len();
    let versions = kept_versions(version);
    let sources = kept_sources(source, code.len());
    let mut record = bytes[..tables_at].to_vec();
    set_size(&mut record, VERSION_SIZE_AT, &versions);
    set_size(&mut record, SOURCE_SIZE_AT, &sources);
    let mut dropped = Vec::new();
    for (place, kept) in (tables_at..).step_by(4).zip(versions.into_iter().chain(sources)) {
        if kept {
            record.extend(&bytes[place..place + 4]);
        } else {
            dropped.push(place as u32);
        }
    }
    Ok(Mended { record, dropped })
}

/// Whether each word is kept: "A malformed version word empties the version table".
fn kept_versions(table: &[u8]) -> Vec<bool> {
    vec![version_sound(table); table.len() / 4]
}

/// Whether each word is kept: "A source table of odd size loses its last word; then, from the
/// front, a pair is kept exactly if its offset is below the code size and above the last kept one".
fn kept_sources(table: &[u8], code_size: usize) -> Vec<bool> {
    let mut kept = Vec::new();
    let mut last = None;
    for pair in table.chunks_exact(8) {
        let offset = word(pair, 0);
        let keep = (offset as usize) < code_size && last.is_none_or(|last| offset > last);
        if keep {
            last = Some(offset);
        }
        kept.extend([keep; 2]);
    }
    kept.resize(table.len() / 4, false);
    kept
}

/// "Header sizes follow."
fn set_size(record: &mut [u8], at: usize, kept: &[bool]) {
    let size = kept.iter().filter(|&&kept| kept).count() as u32;
    record[at..at + 4].copy_from_slice(&size.to_be_bytes());
}

#[cfg(test)]
mod tests {
    use super::{mended, Mended};
    use crate::generate::record::Parts;
    use crate::record::LARGEST;

    /// A record of five code bytes, with these tables and something in every other part.
    fn record(version: &[[u8; 4]], source: &[u32]) -> Vec<u8> {
        let parts = Parts {
            imports: vec![1, 2],
            code: vec![0, 2, 0xff, 0xff, 0xe9],
            globals: 3,
            constants: vec![4],
            relocation: vec![5],
            version: version.to_vec(),
            source: source.to_vec(),
        };
        parts.assemble()
    }

    /// The bytes before the tables of these records.
    const TABLES_AT: u32 = 28 + 8 + 5 + 4 + 4;

    fn expect(version: &[[u8; 4]], source: &[u32], left: Vec<u8>, dropped: &[u32]) {
        let dropped = dropped.iter().map(|index| TABLES_AT + 4 * index).collect();
        assert_eq!(mended(&record(version, source)), Ok(Mended { record: left, dropped }));
    }

    #[test]
    fn tables_are_mended_as_request_k12_says() {
        let (sound, malformed) = (*b" 3/-", *b"3/- ");
        let pairs = [0, 7, 2, 8];
        expect(&[sound, malformed], &pairs, record(&[sound, malformed], &pairs), &[]);
        expect(&[malformed, sound], &pairs, record(&[], &pairs), &[0, 1]);
        // Not above the last kept one, outside the code, and a word too many: the pair at 3 is
        // held to 2, for 9 was not kept.
        let damaged = [0, 7, 0, 1, 2, 8, 9, 2, 1, 3, 3, 9, 5, 4, 4];
        let dropped = [3, 4, 7, 8, 9, 10, 13, 14, 15];
        expect(&[sound], &damaged, record(&[sound], &[0, 7, 2, 8, 3, 9]), &dropped);
        expect(&[], &[4], record(&[], &[]), &[0]);
    }

    #[test]
    fn places_reach_to_the_end_of_the_longest_record() {
        let largest = LARGEST.map(|size| size as usize);
        let parts = |source| Parts {
            imports: vec![1; largest[0]],
            code: vec![0xff; largest[1]],
            globals: LARGEST[2],
            constants: vec![2; largest[3]],
            relocation: vec![3; largest[4]],
            version: vec![*b"12/B"; largest[5]],
            source,
        };
        let mut source: Vec<u32> = (0..LARGEST[6] / 2).flat_map(|pair| [4 * pair, 7]).collect();
        source[largest[6] - 2] = LARGEST[1];
        let left = parts(source[..largest[6] - 2].to_vec()).assemble();
        let expected = Mended { record: left, dropped: vec![32_916, 32_920] };
        assert_eq!(mended(&parts(source).assemble()), Ok(expected));
    }

    #[test]
    fn sizes_that_do_not_fit_are_refused() {
        let sound = record(&[], &[]);
        let mut large = sound.clone();
        large[3] = 17;
        let cases = [(&sound[..27], 1), (&large[..], 2), (&sound[..sound.len() - 1], 3)];
        for (bytes, number) in cases {
            assert_eq!(mended(bytes), Err(number));
        }
    }
}
