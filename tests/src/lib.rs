//! Conformance tests of the I-Code machine: a reference implementation written from the papers,
//! the proved library behind its C interface, and what it takes to compare the two.

// The reference, in the order of the data: bytes, record, instructions, set of modules,
// machine | check, report.
pub mod bytes;
pub mod issue;
pub mod record;
pub mod mend;
pub mod switch_table;
pub mod instruction;
pub mod cut;
pub mod set;
pub mod mnemonic;
pub mod parts;
pub mod listing;
pub mod arithmetic;
pub mod machine;
pub mod check;
pub mod report;

// Both implementations behind one interface.
pub mod interface;
pub mod ffi;

// The comparison.
pub mod guarded;
pub mod cases;
pub mod case_text;
pub mod worked_cases;
pub mod vectors;
pub mod random;
pub mod generate;
pub mod harness;
pub mod workloads;
