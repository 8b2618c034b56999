//! What check and load say of a record, and the places behind it.

use crate::blame::Blame;
use crate::failure::{Failure, Status};
use crate::faults::Fault;
use crate::libraries::Libraries;
use crate::machine::Machine;
use crate::meaning::meaning;
use crate::record::Record;
use crate::run_file::{is_run_file, RunFile};
use crate::set::Set;
use std::ffi::OsStr;

/// The number of a run file that is malformed or too long.
const RUN_FILE_REFUSED: u32 = 16;

pub struct Verdict {
    /// 0 where it is accepted, else the number that refuses it.
    pub number: u32,
    /// As the check left it: all 0 where it refused, and empty for a record that is not sound.
    pub workspace: Vec<u16>,
    /// What is behind the number, with its place; nothing where the record is accepted.
    pub reason: String,
    /// The instructions behind 10 to 14 and 18, the procedures behind 15.
    faults: Vec<Fault>,
}

impl Verdict {
    /// Checks a record with libraries, and these too; with a run file, loads all of them. Without
    /// results all procedures have none.
    pub fn of(
        bytes: &[u8],
        results: Option<&[u8]>,
        file: Option<&RunFile>,
        libraries: &Libraries,
    ) -> Verdict {
        let sound = Record::split(bytes).ok().filter(|record| record.number == 0);
        let zeros = vec![0; sound.map_or(0, |record| record.entries().len())];
        let set = Set::new(bytes, results.unwrap_or(&zeros), libraries);
        let (number, refused, workspace) = checked(&set, file);
        let Blame { module, reason, faults } = Blame::find(number, refused, &set, file);
        // What is marked is the main module's.
        let faults = if module == Some(0) { faults } else { Vec::new() };
        Verdict { number, workspace, reason: named(&set, module, reason), faults }
    }

    pub fn is_accepted(&self) -> bool {
        self.number == 0
    }

    pub fn status(&self) -> Status {
        Status::of(self.is_accepted())
    }

    /// Says the whole of a refusal in words.
    pub fn refusal(&self) -> String {
        refusal(self.number, &self.reason)
    }

    /// Finds the code offset that is behind the number.
    pub fn place(&self) -> Option<usize> {
        self.faults.first().map(|fault| fault.place.start)
    }

    /// Tells whether a row of a listing is behind the number, by its offset.
    pub fn blames(&self, offset: usize) -> bool {
        self.faults.iter().any(|fault| fault.holds(offset))
    }
}

/// Writes a refusal with its reason.
pub fn refusal(number: u32, reason: &str) -> String {
    format!("refused with {number}: {}: {reason}", meaning(number))
}

/// Takes a run file apart; none where the file is meant as a record.
pub fn split_any<'a>(name: &OsStr, bytes: &'a [u8]) -> Result<Option<RunFile<'a>>, Failure> {
    is_run_file(bytes).then(|| split_run_file(name, bytes)).transpose()
}

/// Takes a run file apart, or refuses it with the rule that it breaks.
pub fn split_run_file<'a>(name: &OsStr, bytes: &'a [u8]) -> Result<RunFile<'a>, Failure> {
    let refused = |rule| Failure::Refused(name.to_owned(), refusal(RUN_FILE_REFUSED, rule));
    RunFile::split(bytes).map_err(refused)
}

/// Checks the modules in their order up to the first that is refused, then loads. Answers the
/// number, that module, and the workspace of the main one.
fn checked(set: &Set, file: Option<&RunFile>) -> (u32, usize, Vec<u16>) {
    let (mut number, workspace) = set.check(0);
    let mut refused = 0;
    while number == 0 && refused + 1 < set.modules.len() {
        refused += 1;
        (number, _) = set.check(refused);
    }
    if let (0, Some(file)) = (number, file) {
        number = Machine::load(set, file).err().unwrap_or(0);
    }
    (number, refused, workspace)
}

/// Names the library that is to blame before the reason.
fn named(set: &Set, module: Option<usize>, reason: String) -> String {
    let library = module.and_then(|module| set.modules[module].library);
    library.map_or(reason.clone(), |library| format!("{}: {reason}", library.shown()))
}
