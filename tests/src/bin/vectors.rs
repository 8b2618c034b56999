//! Runs the stored vectors through the proved library. Argument: the folder of the vectors.

use conformance::ffi::PROVED;
use conformance::vectors;

fn main() -> std::process::ExitCode {
    vectors::main(&PROVED)
}
