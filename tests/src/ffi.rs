//! The proved library, called through its C interface (include/icode.h).

use crate::interface::Interface;

#[path = "../../include/icode.rs"]
mod archive;

pub const PROVED: Interface = Interface {
    number: archive::record_number,
    line: archive::line,
    span: archive::line_span,
    mend: archive::mend,
    check: archive::check,
    report: archive::report,
    decode: archive::decode,
    load: archive::load,
    run: archive::run,
    set_check: archive::set_check,
    set_load: archive::set_load,
    set_run: archive::set_run,
};

/// The same with every step by the general step.
pub const GENERAL: Interface = Interface {
    run: |record, budget, memory, stack, state, outcome| {
        archive::run_by(0, record, budget, memory, stack, state, outcome)
    },
    set_run: |records, directory, budget, copy, memory, stack, state, outcome| {
        archive::set_run_by(0, records, directory, budget, copy, memory, stack, state, outcome)
    },
    ..PROVED
};

/// The same with a general step after at most three by the fast loop.
pub const MIXED: Interface = Interface {
    run: |record, budget, memory, stack, state, outcome| {
        archive::run_by(3, record, budget, memory, stack, state, outcome)
    },
    set_run: |records, directory, budget, copy, memory, stack, state, outcome| {
        archive::set_run_by(3, records, directory, budget, copy, memory, stack, state, outcome)
    },
    ..PROVED
};
