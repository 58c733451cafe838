//! What libFuzzer calls.

use crate::{compare, mutation};
use compare::random::Random;
use std::slice;

extern "C" {
    fn LLVMFuzzerMutate(data: *mut u8, size: usize, max_size: usize) -> usize;
}

/// A difference ends the process, and the fuzzer keeps the input.
#[no_mangle]
extern "C" fn LLVMFuzzerTestOneInput(data: *const u8, size: usize) -> i32 {
    // SAFETY: the fuzzer lends `size` bytes; for none the pointer may be null.
    let input = if size == 0 {
        &[]
    } else {
        unsafe { slice::from_raw_parts(data, size) }
    };
    if let Err(what) = compare(input) {
        eprintln!("fuzz: the library and the second implementation differ\n{what}");
        std::process::abort();
    }
    0
}

/// One change in this many makes a new input.
const FRESH_ONE_IN: usize = 16;

/// Changes an input by its structure, by bytes, or both.
#[no_mangle]
extern "C" fn LLVMFuzzerCustomMutator(
    data: *mut u8,
    size: usize,
    max_size: usize,
    seed: u32,
) -> usize {
    let random = &mut Random::new(seed.into());
    // SAFETY: the fuzzer lends `max_size` bytes; the first ones are the input.
    let buffer = unsafe { slice::from_raw_parts_mut(data, max_size) };
    let mut input = buffer[..size].to_vec();
    let changed = if random.one_in(FRESH_ONE_IN) {
        input = mutation::fresh(random);
        true
    } else {
        let by_structure = !input.is_empty() && !random.one_in(3);
        by_structure && mutation::mutate(random, &mut input)
    };
    input.truncate(max_size);
    buffer[..input.len()].copy_from_slice(&input);
    if changed && !random.one_in(4) {
        return input.len();
    }
    // SAFETY: as above.
    unsafe { LLVMFuzzerMutate(data, input.len(), max_size) }
}

#[no_mangle]
extern "C" fn LLVMFuzzerCustomCrossOver(
    data: *const u8,
    size: usize,
    other: *const u8,
    other_size: usize,
    out: *mut u8,
    max_out: usize,
    seed: u32,
) -> usize {
    if size == 0 || other_size == 0 {
        return 0;
    }
    let random = &mut Random::new(seed.into());
    // SAFETY: the fuzzer lends both inputs and `max_out` bytes for the third.
    let (input, other, out) = unsafe {
        (
            slice::from_raw_parts(data, size),
            slice::from_raw_parts(other, other_size),
            slice::from_raw_parts_mut(out, max_out),
        )
    };
    let Some(mut crossed) = mutation::cross(random, input, other) else {
        return 0;
    };
    crossed.truncate(max_out);
    out[..crossed.len()].copy_from_slice(&crossed);
    crossed.len()
}
