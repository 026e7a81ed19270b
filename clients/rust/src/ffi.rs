//! The functions of the library as C has them. `vullades.h` says what each asks for and answers.
//!
//! A slice is passed as a pointer and a length. A pointer may be null where its length is 0.

unsafe extern "C" {
    /// How many words of memory a desk for so many creditors asks for.
    pub safe fn vullades_words(limit: usize) -> i64;

    /// How many bytes it asks for with each call, for the answer.
    pub safe fn vullades_bytes(limit: usize) -> i64;

    /// Opens a desk for so many creditors in lent memory.
    ///
    /// # Safety
    ///
    /// So many words are lent there, in order as words are, and nobody else uses them meanwhile.
    pub unsafe fn vullades_open(memory: *mut u64, words: usize, limit: usize) -> i64;

    /// Does what a call asks for, and writes its answer at the start of the bytes that are lent for it.
    ///
    /// # Safety
    ///
    /// So many words and bytes are lent there, no two of the three overlap, and nobody else uses them meanwhile.
    pub unsafe fn vullades_call(
        memory: *mut u64,
        words: usize,
        call: *const u8,
        length: usize,
        answer: *mut u8,
        bytes: usize,
    ) -> i64;
}
