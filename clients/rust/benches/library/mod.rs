//! The library by its C functions, as the rival is called: a desk, a call, an answer, one signed number.

mod c {
    #[link(name = "vullades", kind = "static")]
    unsafe extern "C" {
        pub fn vullades_words(limit: usize) -> i64;
        pub fn vullades_open(memory: *mut u64, words: usize, limit: usize) -> i64;
        pub fn vullades_call(
            memory: *mut u64,
            words: usize,
            call: *const u8,
            length: usize,
            answer: *mut u8,
            bytes: usize,
        ) -> i64;
    }

    // Of a small archive besides: the level alone, of the words of a desk behind its header.
    #[cfg(feature = "level")]
    #[link(name = "measured", kind = "static")]
    unsafe extern "C" {
        pub fn measured_level(
            ledger: *const u64,
            words: usize,
            count: usize,
            there: u64,
            level: *mut super::Level,
        ) -> bool;
    }
}

#[cfg(feature = "level")]
#[derive(Default)]
#[repr(C)]
pub struct Level {
    numerator: u64,
    denominator: u64,
}

pub struct Library {
    limit: usize,
    memory: Vec<u64>,
}

impl Library {
    pub fn open(limit: usize) -> Result<Library, i64> {
        let words = unsafe { c::vullades_words(limit) };
        let memory = vec![0; usize::try_from(words).map_err(|_| words)?];
        let mut library = Library { limit, memory };
        let opened = library.reopen();
        if opened < 0 { Err(opened) } else { Ok(library) }
    }

    /// As it was when it was opened.
    pub fn reopen(&mut self) -> i64 {
        unsafe { c::vullades_open(self.memory.as_mut_ptr(), self.memory.len(), self.limit) }
    }

    #[inline(always)]
    pub fn call(&mut self, call: &[u8], answer: &mut [u8]) -> i64 {
        unsafe {
            c::vullades_call(
                self.memory.as_mut_ptr(),
                self.memory.len(),
                call.as_ptr(),
                call.len(),
                answer.as_mut_ptr(),
                answer.len(),
            )
        }
    }

    /// The level where so much is there: what is spread, and among how many.
    #[cfg(feature = "level")]
    #[inline(always)]
    pub fn level_of(&self, there: u64) -> (u64, u64) {
        let ledger = &self.memory[64..];
        let mut level = Level::default();
        let found = unsafe {
            c::measured_level(
                ledger.as_ptr(),
                ledger.len(),
                self.memory[2] as usize,
                there,
                &mut level,
            )
        };
        assert!(found, "the level of a desk");
        (level.numerator, level.denominator)
    }
}
