//! Memory to lend, between two pages that cannot be touched.

use super::random::Random;
use std::ffi::{c_int, c_void};
use std::ops::Range;
use std::{ptr, slice};

// From the C library, on which the standard library rests.
unsafe extern "C" {
    fn mmap(
        at: *mut c_void,
        length: usize,
        may: c_int,
        how: c_int,
        file: c_int,
        from: i64,
    ) -> *mut c_void;
    fn mprotect(at: *mut c_void, length: usize, may: c_int) -> c_int;
    fn munmap(at: *mut c_void, length: usize) -> c_int;
}

const READ_AND_WRITE: c_int = 1 | 2;
const PRIVATE_AND_ANONYMOUS: c_int = 0x02 | 0x20;
const PAGE: usize = 4096;

/// Where in a room something stands.
#[derive(Clone, Copy, Debug, PartialEq, Eq)]
enum Stand {
    /// At the start: the byte before it cannot be touched.
    First,
    /// At the end: the byte behind it cannot be touched.
    Last,
    /// In the middle, with other bytes on both sides.
    Between,
}

/// Bytes between two such pages. A part of them is lent, and noise stands around it.
pub struct Room {
    start: *mut u8,
    length: usize,
    lent: Range<usize>,
    stand: Stand,
    noise: Vec<u8>,
    before: Vec<u8>,
}

impl Room {
    /// A room for so many bytes, of whole pages.
    pub fn new(most: usize, random: &mut Random) -> Room {
        let length = most.next_multiple_of(PAGE);
        let noise: Vec<u8> = random.bytes(length).iter().map(|byte| byte | 1).collect();
        let start = between_guards(length);
        let before = noise.clone();
        Room {
            start,
            length,
            lent: 0..0,
            stand: Stand::First,
            noise,
            before,
        }
    }

    /// Lends so many bytes somewhere. All of the room holds noise, no byte of which is 0.
    pub fn lend(&mut self, length: usize, random: &mut Random) {
        self.stand = random.one_of(&[Stand::First, Stand::Last, Stand::Between]);
        let from = match self.stand {
            Stand::First => 0,
            Stand::Last => self.length - length,
            Stand::Between => (self.length - length) / 16 * 8,
        };
        self.lent = from..from + length;
        // SAFETY: the room and the noise are two, and of one length.
        unsafe { ptr::copy_nonoverlapping(self.noise.as_ptr(), self.start, self.length) }
    }

    /// Lends these bytes.
    pub fn lend_bytes(&mut self, bytes: &[u8], random: &mut Random) {
        self.lend(bytes.len(), random);
        // SAFETY: as many bytes are lent, in the room.
        unsafe { ptr::copy_nonoverlapping(bytes.as_ptr(), self.at(), bytes.len()) }
    }

    /// Lends these words.
    pub fn lend_words(&mut self, words: &[u64], random: &mut Random) {
        let bytes: Vec<u8> = words.iter().flat_map(|word| word.to_ne_bytes()).collect();
        self.lend_bytes(&bytes, random);
    }

    /// Whether the byte before what is lent, or the one behind it, cannot be touched.
    pub fn is_guarded(&self) -> bool {
        self.stand != Stand::Between
    }

    /// Where what is lent begins.
    pub fn at(&self) -> *mut u8 {
        // SAFETY: what is lent begins in the room, or at its end.
        unsafe { self.start.add(self.lent.start) }
    }

    /// How many bytes are lent.
    pub fn len(&self) -> usize {
        self.lent.len()
    }

    /// The bytes that are lent.
    pub fn bytes(&self) -> &[u8] {
        &self.all()[self.lent.clone()]
    }

    /// The words that are lent.
    pub fn words(&self) -> Vec<u64> {
        let (rows, rest) = self.bytes().as_chunks();
        assert!(rest.is_empty(), "words are lent");
        rows.iter().map(|row| u64::from_ne_bytes(*row)).collect()
    }

    /// Keeps what the room holds, to compare with it.
    pub fn keep(&mut self) {
        // SAFETY: the room and what is kept are two, and of one length.
        unsafe { ptr::copy_nonoverlapping(self.start, self.before.as_mut_ptr(), self.length) }
    }

    /// Whether all is as it was kept, but for so many bytes at the start of what is lent.
    pub fn is_kept_but(&self, changed: usize) -> bool {
        let (now, from) = (self.all(), self.lent.start);
        assert!(changed <= self.len(), "no more than is lent");
        now[..from] == self.before[..from] && now[from + changed..] == self.before[from + changed..]
    }

    fn all(&self) -> &[u8] {
        // SAFETY: the room lies between the guards, and is borrowed.
        unsafe { slice::from_raw_parts(self.start, self.length) }
    }
}

impl Drop for Room {
    fn drop(&mut self) {
        // SAFETY: the room and its guards were mapped together, and are used no more.
        let status = unsafe { munmap(self.start.sub(PAGE).cast(), self.length + 2 * PAGE) };
        assert_eq!(status, 0, "what was mapped can be unmapped");
    }
}

/// Maps so many bytes between two pages that cannot be touched.
fn between_guards(length: usize) -> *mut u8 {
    // SAFETY: pages that nobody has are asked for, and of these the inner ones are opened.
    unsafe {
        let all = mmap(
            ptr::null_mut(),
            length + 2 * PAGE,
            0,
            PRIVATE_AND_ANONYMOUS,
            -1,
            0,
        );
        assert_ne!(all.addr(), usize::MAX, "there are pages");
        let inner = all.cast::<u8>().add(PAGE);
        let status = mprotect(inner.cast(), length, READ_AND_WRITE);
        assert_eq!(status, 0, "pages can be opened");
        inner
    }
}
