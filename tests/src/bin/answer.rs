//! Reads case lines (vectors/FORMAT.md) on standard input and answers each through the C
//! interface of the proved library.

use conformance::{cases::Case, ffi::PROVED};
use std::io::{stdin, stdout, BufRead, BufWriter, Write};

fn main() -> std::io::Result<()> {
    let mut out = BufWriter::new(stdout().lock());
    for line in stdin().lock().lines() {
        match line?.parse::<Case>() {
            Ok(case) => writeln!(out, "{}", case.answer(&PROVED))?,
            Err(error) => writeln!(out, "error {error}")?,
        }
    }
    out.flush()
}
