//! Checks and runs over two columns, of classes and of marks: words, and UAX #29's clusters.

use crate::{sys, Refusal};

pub(crate) fn check_by(check: sys::MarkedCheck, classes: &[u8], marks: &[u8]) -> Result<(), Refusal> {
    let mut results = [0; 3];
    // Safe: every pointer and count is a slice's, and the library stays inside them for every input.
    unsafe {
        check(
            classes.as_ptr(),
            classes.len(),
            marks.as_ptr(),
            marks.len(),
            results.as_mut_ptr(),
            results.len(),
        )
    };
    Refusal::in_results(&results)
}

pub(crate) fn run_by(run: sys::MarkedRun, classes: &[u8], marks: &[u8], out: &mut [u8]) -> Result<(), Refusal> {
    let mut results = [0; 3];
    // Safe: as above, and a `&mut` overlaps nothing else.
    unsafe {
        run(
            classes.as_ptr(),
            classes.len(),
            marks.as_ptr(),
            marks.len(),
            out.as_mut_ptr(),
            out.len(),
            results.as_mut_ptr(),
            results.len(),
        )
    };
    Refusal::in_results(&results)
}
