//! Runs the stored vectors through the reference. Argument: the folder of the vectors.

use conformance::interface::REFERENCE;
use conformance::vectors;

fn main() -> std::process::ExitCode {
    vectors::main(&REFERENCE)
}
