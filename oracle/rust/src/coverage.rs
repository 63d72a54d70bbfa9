//! Which blocks of the Rust a case takes, in a build with LLVM's coverage counters
//! (`oracle/coverage` sets the flags). The counters' runtime is this file.

use std::sync::atomic::{AtomicUsize, Ordering};

static COUNTERS: [AtomicUsize; 2] = [const { AtomicUsize::new(0) }; 2];
static BLOCKS: [AtomicUsize; 2] = [const { AtomicUsize::new(0) }; 2];

fn keep(range: &[AtomicUsize; 2], start: usize, stop: usize) {
    range[0].store(start, Ordering::Relaxed);
    range[1].store(stop, Ordering::Relaxed);
}

fn kept<T>(range: &[AtomicUsize; 2]) -> (*mut T, usize) {
    let [start, stop] = [0, 1].map(|end| range[end].load(Ordering::Relaxed));
    (start as *mut T, (stop - start) / size_of::<T>())
}

/// Called before `main` with the counters, one byte a block.
#[no_mangle]
extern "C" fn __sanitizer_cov_8bit_counters_init(start: usize, stop: usize) {
    keep(&COUNTERS, start, stop);
}

/// Called before `main` with the blocks: address and flags, two words each.
#[no_mangle]
extern "C" fn __sanitizer_cov_pcs_init(start: usize, stop: usize) {
    keep(&BLOCKS, start, stop);
}

/// The addresses of all blocks.
pub fn blocks() -> String {
    let (start, count) = kept::<[usize; 2]>(&BLOCKS);
    // SAFETY: the range that LLVM handed over, which nobody writes to.
    let blocks = unsafe { std::slice::from_raw_parts(start, count) };
    blocks.iter().map(|[address, _]| format!("{address:x}")).collect::<Vec<_>>().join(" ")
}

pub fn clear() {
    let (start, count) = kept::<u8>(&COUNTERS);
    // SAFETY: the range that LLVM handed over; one thread only.
    unsafe { start.write_bytes(0, count) };
}

/// The numbers of the blocks taken since `clear`.
pub fn taken() -> String {
    let (start, count) = kept::<u8>(&COUNTERS);
    // SAFETY: as above; each counter is read by itself, since this very function is counted.
    let taken = (0..count).filter(|&block| unsafe { start.add(block).read_volatile() } != 0);
    taken.map(|block| block.to_string()).collect::<Vec<_>>().join(" ")
}
