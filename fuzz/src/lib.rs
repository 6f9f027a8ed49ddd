//! The fuzzer's target. Bytes of any content become files, arrays and calls,
//! which engine and oracle are asked alike; a difference ends the process, and
//! the fuzzer keeps the bytes.
//!
//! Whatever is lent is an allocation of its own of exactly the lent length, so
//! that AddressSanitizer sees a touch past either end.

mod arrays;
mod calls;
mod files;
mod input;
mod seeds;
mod studies;

use harness::compare::Difference;
use input::Input;
use std::ffi::{c_char, c_int, CStr};
use std::path::Path;
use std::process;

/// Called once for each input.
///
/// # Safety
/// `data` points to `size` bytes.
#[no_mangle]
pub unsafe extern "C" fn LLVMFuzzerTestOneInput(data: *const u8, size: usize) -> c_int {
    let bytes = match size {
        0 => &[],
        // SAFETY: the caller's promise.
        _ => unsafe { std::slice::from_raw_parts(data, size) },
    };
    if let Err(difference) = one(&mut Input::new(bytes)) {
        eprintln!("DIFFERENCE: {}", difference.what);
        process::abort();
    }
    0
}

/// The first byte says what the others are for; studies come up most.
fn one(input: &mut Input) -> Result<(), Difference> {
    match input.below(8) {
        0 => files::raw(input),
        1 => files::patched(input),
        2 => files::survey(input),
        _ => studies::calls(input),
    }
}

/// Called once at the beginning: `--seeds FOLDER SEED` writes the inputs to
/// begin with into the folder, and ends.
///
/// # Safety
/// `count` and `words` point to main's own arguments.
#[no_mangle]
pub unsafe extern "C" fn LLVMFuzzerInitialize(
    count: *const c_int,
    words: *const *const *const c_char,
) -> c_int {
    // SAFETY: the caller's promise.
    let word = |at: usize| unsafe { CStr::from_ptr(*(*words).add(at)) }.to_string_lossy();
    // SAFETY: likewise.
    if unsafe { *count } != 4 || word(1) != "--seeds" {
        return 0;
    }
    let seed = word(3).parse().expect("a seed is a number");
    seeds::write(Path::new(&*word(2)), seed).expect("the folder can be written");
    process::exit(0);
}
