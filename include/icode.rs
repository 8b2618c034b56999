//! include/icode.h in Rust: its functions, then the calls with slices. What they answer and write is
//! said there.

extern "C" {
    fn icode_record_number(record: *const u8, record_len: usize) -> u32;
    fn icode_line(record: *const u8, record_len: usize, offset: u32) -> u64;
    fn icode_line_span(
        record: *const u8,
        record_len: usize,
        offset: u32,
        span: *mut u32,
        span_len: usize,
    ) -> u32;
    fn icode_mend(
        record: *const u8,
        record_len: usize,
        out: *mut u8,
        out_len: usize,
        places: *mut u32,
        places_len: usize,
        counts: *mut u32,
        counts_len: usize,
    ) -> u32;
    fn icode_check(
        record: *const u8,
        record_len: usize,
        results: *const u8,
        results_len: usize,
        workspace: *mut u16,
        workspace_len: usize,
    ) -> u32;
    fn icode_report(
        run_file: *const u8,
        run_file_len: usize,
        out: *mut u8,
        out_len: usize,
    ) -> usize;
    fn icode_bench_decode(
        code: *const u8,
        code_len: usize,
        limit: usize,
        at: usize,
        out: *mut u32,
        out_len: usize,
    ) -> u32;
    fn icode_bench_load(
        record: *const u8,
        record_len: usize,
        parameters: *const u32,
        parameters_len: usize,
        memory: *mut u32,
        memory_len: usize,
        stack: *const u32,
        stack_len: usize,
        state: *mut u32,
        state_len: usize,
    ) -> u32;
    fn icode_bench_run(
        record: *const u8,
        record_len: usize,
        budget: u32,
        memory: *mut u32,
        memory_len: usize,
        stack: *mut u32,
        stack_len: usize,
        state: *mut u32,
        state_len: usize,
        outcome: *mut u32,
        outcome_len: usize,
    ) -> u32;
    fn icode_bench_run_by(
        at_once: u32,
        record: *const u8,
        record_len: usize,
        budget: u32,
        memory: *mut u32,
        memory_len: usize,
        stack: *mut u32,
        stack_len: usize,
        state: *mut u32,
        state_len: usize,
        outcome: *mut u32,
        outcome_len: usize,
    ) -> u32;
    fn icode_set_check(
        records: *const u8,
        records_len: usize,
        results: *const u8,
        results_len: usize,
        directory: *const u32,
        directory_len: usize,
        own: u32,
        workspace: *mut u16,
        workspace_len: usize,
    ) -> u32;
    fn icode_bench_set_load(
        records: *const u8,
        records_len: usize,
        directory: *const u32,
        directory_len: usize,
        parameters: *const u32,
        parameters_len: usize,
        copy: *mut u8,
        copy_len: usize,
        memory: *mut u32,
        memory_len: usize,
        stack: *const u32,
        stack_len: usize,
        state: *mut u32,
        state_len: usize,
    ) -> u32;
    fn icode_bench_set_run(
        records: *const u8,
        records_len: usize,
        directory: *const u32,
        directory_len: usize,
        budget: u32,
        copy: *const u8,
        copy_len: usize,
        memory: *mut u32,
        memory_len: usize,
        stack: *mut u32,
        stack_len: usize,
        state: *mut u32,
        state_len: usize,
        outcome: *mut u32,
        outcome_len: usize,
    ) -> u32;
    fn icode_bench_set_run_by(
        at_once: u32,
        records: *const u8,
        records_len: usize,
        directory: *const u32,
        directory_len: usize,
        budget: u32,
        copy: *const u8,
        copy_len: usize,
        memory: *mut u32,
        memory_len: usize,
        stack: *mut u32,
        stack_len: usize,
        state: *mut u32,
        state_len: usize,
        outcome: *mut u32,
        outcome_len: usize,
    ) -> u32;
}

// SAFETY, for every call below: each pointer and length are those of one Rust slice, mutable
// where the function writes, and the library keeps none of them after it returns.

pub fn record_number(record: &[u8]) -> u32 {
    unsafe { icode_record_number(record.as_ptr(), record.len()) }
}

pub fn line(record: &[u8], offset: u32) -> u64 {
    unsafe { icode_line(record.as_ptr(), record.len(), offset) }
}

pub fn line_span(record: &[u8], offset: u32, span: &mut [u32]) -> u32 {
    unsafe { icode_line_span(record.as_ptr(), record.len(), offset, span.as_mut_ptr(), span.len()) }
}

pub fn mend(record: &[u8], out: &mut [u8], places: &mut [u32], counts: &mut [u32]) -> u32 {
    unsafe {
        icode_mend(
            record.as_ptr(),
            record.len(),
            out.as_mut_ptr(),
            out.len(),
            places.as_mut_ptr(),
            places.len(),
            counts.as_mut_ptr(),
            counts.len(),
        )
    }
}

pub fn check(record: &[u8], results: &[u8], workspace: &mut [u16]) -> u32 {
    unsafe {
        icode_check(
            record.as_ptr(),
            record.len(),
            results.as_ptr(),
            results.len(),
            workspace.as_mut_ptr(),
            workspace.len(),
        )
    }
}

pub fn report(run_file: &[u8], out: &mut [u8]) -> usize {
    unsafe { icode_report(run_file.as_ptr(), run_file.len(), out.as_mut_ptr(), out.len()) }
}

pub fn decode(code: &[u8], limit: usize, at: usize, out: &mut [u32]) -> u32 {
    unsafe { icode_bench_decode(code.as_ptr(), code.len(), limit, at, out.as_mut_ptr(), out.len()) }
}

/// The stack is lent as mutable, though it is not written, so that a test may look whether it was.
pub fn load(
    record: &[u8],
    parameters: &[u32],
    memory: &mut [u32],
    stack: &mut [u32],
    state: &mut [u32],
) -> u32 {
    unsafe {
        icode_bench_load(
            record.as_ptr(),
            record.len(),
            parameters.as_ptr(),
            parameters.len(),
            memory.as_mut_ptr(),
            memory.len(),
            stack.as_mut_ptr(),
            stack.len(),
            state.as_mut_ptr(),
            state.len(),
        )
    }
}

pub fn run(
    record: &[u8],
    budget: u32,
    memory: &mut [u32],
    stack: &mut [u32],
    state: &mut [u32],
    outcome: &mut [u32],
) -> u32 {
    unsafe {
        icode_bench_run(
            record.as_ptr(),
            record.len(),
            budget,
            memory.as_mut_ptr(),
            memory.len(),
            stack.as_mut_ptr(),
            stack.len(),
            state.as_mut_ptr(),
            state.len(),
            outcome.as_mut_ptr(),
            outcome.len(),
        )
    }
}

pub fn run_by(
    at_once: u32,
    record: &[u8],
    budget: u32,
    memory: &mut [u32],
    stack: &mut [u32],
    state: &mut [u32],
    outcome: &mut [u32],
) -> u32 {
    unsafe {
        icode_bench_run_by(
            at_once,
            record.as_ptr(),
            record.len(),
            budget,
            memory.as_mut_ptr(),
            memory.len(),
            stack.as_mut_ptr(),
            stack.len(),
            state.as_mut_ptr(),
            state.len(),
            outcome.as_mut_ptr(),
            outcome.len(),
        )
    }
}

pub fn set_check(
    records: &[u8],
    results: &[u8],
    directory: &[u32],
    own: u32,
    workspace: &mut [u16],
) -> u32 {
    unsafe {
        icode_set_check(
            records.as_ptr(),
            records.len(),
            results.as_ptr(),
            results.len(),
            directory.as_ptr(),
            directory.len(),
            own,
            workspace.as_mut_ptr(),
            workspace.len(),
        )
    }
}

/// The stack is lent as in `load`.
pub fn set_load(
    records: &[u8],
    directory: &[u32],
    parameters: &[u32],
    copy: &mut [u8],
    memory: &mut [u32],
    stack: &mut [u32],
    state: &mut [u32],
) -> u32 {
    unsafe {
        icode_bench_set_load(
            records.as_ptr(),
            records.len(),
            directory.as_ptr(),
            directory.len(),
            parameters.as_ptr(),
            parameters.len(),
            copy.as_mut_ptr(),
            copy.len(),
            memory.as_mut_ptr(),
            memory.len(),
            stack.as_mut_ptr(),
            stack.len(),
            state.as_mut_ptr(),
            state.len(),
        )
    }
}

/// The copy is lent as mutable too, though it is not written.
#[allow(clippy::too_many_arguments)]
pub fn set_run(
    records: &[u8],
    directory: &[u32],
    budget: u32,
    copy: &mut [u8],
    memory: &mut [u32],
    stack: &mut [u32],
    state: &mut [u32],
    outcome: &mut [u32],
) -> u32 {
    unsafe {
        icode_bench_set_run(
            records.as_ptr(),
            records.len(),
            directory.as_ptr(),
            directory.len(),
            budget,
            copy.as_mut_ptr(),
            copy.len(),
            memory.as_mut_ptr(),
            memory.len(),
            stack.as_mut_ptr(),
            stack.len(),
            state.as_mut_ptr(),
            state.len(),
            outcome.as_mut_ptr(),
            outcome.len(),
        )
    }
}

/// The same for this copy.
#[allow(clippy::too_many_arguments)]
pub fn set_run_by(
    at_once: u32,
    records: &[u8],
    directory: &[u32],
    budget: u32,
    copy: &mut [u8],
    memory: &mut [u32],
    stack: &mut [u32],
    state: &mut [u32],
    outcome: &mut [u32],
) -> u32 {
    unsafe {
        icode_bench_set_run_by(
            at_once,
            records.as_ptr(),
            records.len(),
            directory.as_ptr(),
            directory.len(),
            budget,
            copy.as_mut_ptr(),
            copy.len(),
            memory.as_mut_ptr(),
            memory.len(),
            stack.as_mut_ptr(),
            stack.len(),
            state.as_mut_ptr(),
            state.len(),
            outcome.as_mut_ptr(),
            outcome.len(),
        )
    }
}
