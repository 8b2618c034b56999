//! A record or a run file, with what check and load say of it.

use crate::failure::Failure;
use crate::libraries::Libraries;
use crate::run_file::RunFile;
use crate::verdict::{split_any, Verdict};
use std::ffi::OsStr;

pub struct Judged<'a> {
    pub bytes: &'a [u8],
    /// None where it is a record alone.
    pub file: Option<RunFile<'a>>,
    pub record: &'a [u8],
    /// As asked for, or of the run file; none where all are taken as 0.
    pub results: Option<Vec<u8>>,
    pub verdict: Verdict,
}

impl<'a> Judged<'a> {
    /// Judges with the results that are asked for, else with those of the run file, beside
    /// libraries.
    pub fn of(
        name: &OsStr,
        bytes: &'a [u8],
        asked: Option<&[u8]>,
        libraries: &Libraries,
    ) -> Result<Judged<'a>, Failure> {
        let file = split_any(name, bytes)?;
        let record = file.as_ref().map_or(bytes, |file| file.record);
        let results = asked.or(file.as_ref().map(|file| file.results)).map(<[u8]>::to_vec);
        let verdict = Verdict::of(record, results.as_deref(), file.as_ref(), libraries);
        Ok(Judged { bytes, file, record, results, verdict })
    }

    pub fn refused(&self, name: &OsStr) -> Failure {
        Failure::Refused(name.to_owned(), self.verdict.refusal())
    }
}
