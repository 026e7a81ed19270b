//! The functions of the library over slices. Each answers a length, or a refusal as a number below 0, which
//! [`length`](crate::length) tells apart.

use crate::ffi;

/// How many words of memory a desk for so many creditors asks for.
pub fn words(limit: usize) -> i64 {
    ffi::vullades_words(limit)
}

/// How many bytes it asks for with each call, for the answer.
pub fn bytes(limit: usize) -> i64 {
    ffi::vullades_bytes(limit)
}

/// Opens a desk for so many creditors, whatever memory held. Answers how many words it takes.
pub fn open(memory: &mut [u64], limit: usize) -> i64 {
    // SAFETY: a slice lends what it says, to nobody else meanwhile.
    unsafe { ffi::vullades_open(memory.as_mut_ptr(), memory.len(), limit) }
}

/// Does what a call asks for, and writes its answer at the start of the bytes that are lent for it. Answers how long it is.
pub fn call(memory: &mut [u64], call: &[u8], answer: &mut [u8]) -> i64 {
    // SAFETY: slices lend what they say, to nobody else meanwhile, and no two of them overlap.
    unsafe {
        ffi::vullades_call(
            memory.as_mut_ptr(),
            memory.len(),
            call.as_ptr(),
            call.len(),
            answer.as_mut_ptr(),
            answer.len(),
        )
    }
}
